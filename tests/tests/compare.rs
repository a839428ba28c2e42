//! Document 02, request 1: its rows by hand, two full nights, and what holds of any traces on a
//! subject alone.

use hsc_tests::generate::event::{event, restamp};
use hsc_tests::generate::image::{self, Parts};
use hsc_tests::generate::{pair, Rng};
use hsc_tests::harness::alone::{answer, generated};
use hsc_tests::harness::case::Case;
use hsc_tests::model::event::Bytes;
use hsc_tests::model::trace::MAX_EVENTS;
use hsc_tests::model::Refusal;
use hsc_tests::subject::on_each;

fn acc(value: i32) -> Bytes {
    event(5, 0, value)
}

const ILLEGAL: Bytes = [10, 0, 0, 0, 0, 0, 0, 0, 0, 0, 0, 0];

#[test]
fn differences_by_hand() {
    let mut stamped = acc(1);
    stamped[8..].fill(0xff);
    let one = [acc(1)];
    let three = [acc(1), acc(2), acc(3)];
    let rows: [(&[Bytes], &[Bytes], &[u32]); 17] = [
        (&[], &[], &[]),
        (&three, &three, &[]),
        (&one, &[stamped], &[]),
        (&[event(6, 0, 0)], &[event(7, 0, 0)], &[0]),
        (&[event(2, 1, 5)], &[event(2, 2, 5)], &[0]),
        (&[acc(0)], &[acc(1)], &[0]),
        (&[acc(0)], &[acc(1 << 8)], &[0]),
        (&[acc(0)], &[acc(1 << 16)], &[0]),
        (&[acc(0)], &[acc(1 << 24)], &[0]),
        (&[event(0, 0, 0)], &[acc(0)], &[0]),
        (&three, &[acc(1), acc(9), acc(3)], &[1]),
        (&three, &[acc(9), acc(2), acc(9)], &[0, 2]),
        (&three, &[acc(3), acc(1), acc(2)], &[0, 1, 2]),
        // Events past the shorter's length are not compared.
        (&three, &[], &[]),
        (&three, &one, &[]),
        (&three, &[acc(9)], &[0]),
        (&three, &[stamped, acc(9)], &[1]),
    ];
    on_each(|subject| {
        for (first, second, places) in rows {
            for (first, second) in [(first, second), (second, first)] {
                let lend = |row| Case::compare(first.as_flattened(), second.as_flattened(), row);
                for spare in [0, 1, 9] {
                    let case = lend(places.len() + spare);
                    case.expect(subject, &case.listed(places)).unwrap();
                }
                for row in 0..places.len() {
                    let case = lend(row);
                    case.expect(subject, &case.refused(12, 0)).unwrap();
                }
            }
        }
    });
}

#[test]
fn refusals() {
    let good = [acc(1), acc(2)].concat();
    let early = [ILLEGAL, acc(2)].concat();
    let late = [acc(1), ILLEGAL].concat();
    let both = [ILLEGAL, ILLEGAL].concat();
    let uneven = [&good[..], &[0]].concat();
    let beyond = vec![0; 12 * (MAX_EVENTS as usize + 1)];
    let size = Refusal::new(9, 0);
    let illegal = |place, trace| Refusal::new(5, place).of_trace(trace);
    let rows = [
        (&good[..11], &good[..], size),
        (&good, &good[..13], size),
        (&uneven, &early, size),
        (&early, &uneven, size),
        (&beyond, &early, size),
        (&early, &beyond, size),
        (&early, &good, illegal(0, 1)),
        (&good, &early, illegal(0, 2)),
        (&late, &early, illegal(1, 1)),
        (&early, &late, illegal(0, 1)),
        (&both, &both, illegal(0, 1)),
        // Past the shorter's length too.
        (&late, &good[..12], illegal(1, 1)),
        (&good[..12], &late, illegal(1, 2)),
        (&both, &[], illegal(0, 1)),
        (&[], &late, illegal(1, 2)),
        (&late, &early[..12], illegal(1, 1)),
        (&early[..12], &late, illegal(0, 1)),
        (&good, &good[12..], Refusal::new(12, 0)),
    ];
    on_each(|subject| {
        for (first, second, refusal) in rows {
            let case = Case::compare(first, second, 0);
            case.expect(subject, &case.refused_by(refusal)).unwrap();
            if refusal.number != 12 {
                let case = Case::compare(first, second, 9);
                case.expect(subject, &case.refused_by(refusal)).unwrap();
            }
        }
    });
}

#[test]
fn two_full_nights() {
    let events = image::events(&mut Rng::new(1), MAX_EVENTS as usize);
    let last = MAX_EVENTS - 1;
    let mut changed = events.clone();
    for place in [0, 1, 4096, last] {
        // A blank if it was none, else another event.
        changed[place as usize] = if events[place as usize][0] == 0 { acc(0) } else { event(0, 0, 0) };
    }
    on_each(|subject| {
        let case = Case::compare(events.as_flattened(), changed.as_flattened(), 4);
        case.expect(subject, &case.listed(&[0, 1, 4096, last])).unwrap();
        let case = Case::compare(events.as_flattened(), changed.as_flattened(), 3);
        case.expect(subject, &case.refused(12, 0)).unwrap();
    });
}

#[test]
fn rest_by_hand() {
    // The two lengths, then the trace and its part.
    let rows = [
        (36, 12, 1, [12, 24]),
        (12, 36, 2, [12, 24]),
        (24, 24, 1, [24, 0]),
        (0, 0, 1, [0, 0]),
        (12, 0, 1, [0, 12]),
        (0, 12, 2, [0, 12]),
        (7, 7, 1, [7, 0]),
        (13, 12, 1, [12, 1]),
        (12, 13, 2, [12, 1]),
        (5, 30, 2, [5, 25]),
        (1, 12 * (MAX_EVENTS as usize + 1), 2, [1, 12582923]),
    ];
    on_each(|subject| {
        for (first, second, trace, part) in rows {
            // Illegal events are no matter.
            let case = Case::rest(&vec![0xee; first], &vec![0xee; second]);
            case.expect(subject, &case.part(trace, part)).unwrap();
        }
    });
}

#[test]
fn a_trace_differs_nowhere_from_itself() {
    generated(|subject, rng| {
        let [first, second] = pair::legal(rng);
        for trace in [first.as_flattened(), second.as_flattened()] {
            let case = Case::compare(trace, trace, rng.below(3));
            case.expect(subject, &case.listed(&[])).unwrap();
        }
    });
}

#[test]
fn either_order_gives_the_same_but_for_the_trace_named() {
    generated(|subject, rng| {
        let [first, second] = pair::any(rng);
        let row = pair::row_length(rng, &first, &second);
        let there = answer(subject, Case::compare(&first, &second, row));
        let back = answer(subject, Case::compare(&second, &first, row));
        assert_eq!((there.number(), there.row()), (back.number(), back.row()));
        assert_eq!(there.results, back.results);
        match (there.trace(), back.trace()) {
            // Both have an illegal event, and each is the first once.
            (1, 1) => {}
            (0, 0) | (1, 2) | (2, 1) => assert_eq!(there.place(), back.place()),
            named => panic!("{named:?}"),
        }
    });
}

#[test]
fn stamps_have_no_say() {
    generated(|subject, rng| {
        let [mut first, mut second] = pair::any(rng);
        let row = pair::row_length(rng, &first, &second);
        let old = answer(subject, Case::compare(&first, &second, row));
        restamp(rng, &mut first);
        restamp(rng, &mut second);
        let new = answer(subject, Case::compare(&first, &second, row));
        assert_eq!((old.status, old.row(), old.results), (new.status, new.row(), new.results));
    });
}

/// Demand 3's use of it: such images have the same table and final state.
#[test]
fn traces_that_differ_nowhere_are_replayed_alike() {
    generated(|subject, rng| {
        let first = image::with_true_table(rng);
        let parts = Parts::of(&first);
        let (events, table) = (parts.event(0)..parts.snapshot(0), parts.snapshot(0)..);
        let mut second = first.clone();
        restamp(rng, &mut second[events.clone()]);
        second[table.clone()].fill(0);
        let case = Case::compare(&first[events.clone()], &second[events], 0);
        case.expect(subject, &case.listed(&[])).unwrap();
        let [first, second] = [first, second].map(|image| answer(subject, Case::replay(&image)));
        assert_eq!((first.status, second.status), (0, 0));
        assert!(first.buffer()[table.clone()] == second.buffer()[table]);
        assert_eq!(first.results.last, second.results.last);
    });
}
