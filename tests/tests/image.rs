//! Document 01's image: the office example, every refusal with its place, mends worked out by
//! hand, and inputs too large or too many for the generated cases.

use hsc_tests::generate::event::event;
use hsc_tests::generate::image::{self, Parts};
use hsc_tests::generate::{Rng, EDGES};
use hsc_tests::harness::case::Case;
use hsc_tests::harness::demand3;
use hsc_tests::model::counter::Counter;
use hsc_tests::model::event::Bytes;
use hsc_tests::model::snapshot::{decode, encode};
use hsc_tests::model::trace::MAX_EVENTS;
use hsc_tests::subject::{on_each, Model, Subject, UNDER_TEST};

fn acc(value: i32) -> Bytes {
    event(5, 0, value)
}

const ILLEGAL: Bytes = [10, 0, 0, 0, 0, 0, 0, 0, 0, 0, 0, 0];

/// An image with a true table of the events ACC := 1, ACC := 2 and so on.
fn counting(events: i32, spacing: usize) -> Vec<u8> {
    let events: Vec<Bytes> = (1..=events).map(acc).collect();
    let mut bytes = image::image(&events, spacing);
    assert_eq!(Model.replay(&mut bytes, &mut [0; 68]), 0);
    bytes
}

#[test]
fn office_example() {
    let mut bytes = image::image(&[acc(7), event(9, 0, 3)], 1);
    assert_eq!(bytes.len(), 252);
    bytes[48..].fill(0xee);
    let mut want = bytes.clone();
    let mut state = Counter::fresh();
    for (j, (acc, outputs)) in [(0, 0), (7, 0), (7, 3)].into_iter().enumerate() {
        state = Counter { acc, outputs, ..state };
        want[48 + 68 * j..][..68].copy_from_slice(&encode(&state));
    }
    on_each(|subject| {
        let (mut image, mut last) = (bytes.clone(), [0; 68]);
        assert_eq!(subject.replay(&mut image, &mut last), 0);
        assert_eq!(image, want);
        let last = decode(&last);
        assert_eq!((last.acc, last.outputs, last.er, last.flags), (7, 3, 0, 0x780));
    });
}

/// A valid image with one header number replaced.
fn with_number(at: usize, number: u32) -> Vec<u8> {
    let mut bytes = counting(4, 2);
    bytes[4 * at..][..4].copy_from_slice(&number.to_le_bytes());
    bytes
}

fn with_event(place: usize, event: Bytes) -> Vec<u8> {
    let mut bytes = counting(4, 2);
    bytes[24 + 12 * place..][..12].copy_from_slice(&event);
    bytes
}

#[test]
fn image_refusals() {
    let good = counting(4, 2);
    let beyond = image::image(&vec![[0; 12]; MAX_EVENTS as usize + 1], 4096);
    let rows = [
        (vec![], 1, 0),
        (good[..23].to_vec(), 1, 0),
        (beyond, 2, 0),
        (with_number(4, 0), 2, 0),
        (with_number(4, 4097), 2, 0),
        (with_number(5, 1), 2, 0),
        (with_number(1, 25), 3, 0),
        (with_number(2, 2), 3, 0),
        (with_number(3, 71), 3, 0),
        (with_number(4, 4096), 3, 0),
        (good[..good.len() - 1].to_vec(), 4, 0),
        ([&good[..], &[0]].concat(), 4, 0),
        (good[..24].to_vec(), 4, 0),
        (with_event(0, ILLEGAL), 5, 0),
        (with_event(3, ILLEGAL), 5, 3),
    ];
    on_each(|subject| {
        for (image, number, place) in &rows {
            for case in [Case::replay(image), Case::mend(image, 9, &[1])] {
                case.expect(subject, &case.refused(*number, *place)).unwrap();
            }
        }
    });
}

#[test]
fn mend_refusals() {
    let good = counting(4, 2);
    let mut bad_snapshot = good.clone();
    bad_snapshot[24 + 48 + 68 + 64] = 16;
    let one = acc(9);
    let rows = [
        (&good, 0, one[..11].to_vec(), 7, 0),
        (&good, 4, one.to_vec(), 7, 0),
        (&good, 5, vec![], 7, 0),
        (&good, 0, one.repeat(5), 7, 0),
        (&good, u64::MAX, one.to_vec(), 7, 0),
        (&good, 1 << 32, one.to_vec(), 7, 0),
        (&good, 0, [one, one, ILLEGAL].concat(), 8, 2),
        (&good, 4, ILLEGAL.to_vec(), 7, 0),
        (&bad_snapshot, 2, ILLEGAL.to_vec(), 8, 0),
        (&bad_snapshot, 2, one.to_vec(), 6, 1),
        (&bad_snapshot, 3, vec![], 6, 1),
    ];
    on_each(|subject| {
        for (image, first, patch, number, place) in &rows {
            let case = Case::mend(image, *first, patch);
            case.expect(subject, &case.refused(*number, *place)).unwrap();
        }
        // A snapshot that need not be read is never a reason for 6.
        for first in [0, 4] {
            assert_eq!(Case::mend(&bad_snapshot, first, &[]).answer(subject).status, 0);
        }
    });
}

#[test]
fn snapshot_and_event_refusals() {
    let fresh = encode(&Counter::fresh());
    let mut bad = fresh;
    bad[64] = 16;
    let legal = acc(1);
    let steps = [
        (&fresh[..67], &legal[..], 9),
        (&[fresh, fresh].concat(), &legal[..], 9),
        (&fresh, &legal[..11], 9),
        (&bad, &[], 9),
        (&bad, &ILLEGAL, 5),
        (&fresh, &ILLEGAL, 5),
        (&bad, &legal, 6),
    ];
    on_each(|subject| {
        for (snapshot, event, number) in steps {
            let case = Case::step(snapshot, event);
            case.expect(subject, &case.refused(number, 0)).unwrap();
        }
        for (snapshot, number) in [(&fresh[..67], 9), (&[], 9), (&bad, 6)] {
            let case = Case::read(snapshot);
            case.expect(subject, &case.refused(number, 0)).unwrap();
        }
        for (event, answer) in [(&legal[..], 1), (&ILLEGAL, 0), (&legal[..11], 9), (&[0; 13], 9), (&[], 9)] {
            assert_eq!(subject.event_check(event), answer);
        }
    });
}

/// What makes the fresh snapshot no longer well formed: a byte and its new value.
#[test]
fn well_formed() {
    let rows = [
        (57, 0x10),
        (57, 0x80),
        (58, 1),
        (60, 0x90),
        (62, 0x10),
        (63, 0x80),
        (64, 16),
        (65, 5),
        (66, 1),
        (67, 1),
        (26, 1),
        (51, 1),
        (62, 0x08),
    ];
    on_each(|subject| {
        for (at, byte) in rows {
            let mut snapshot = encode(&Counter::fresh());
            snapshot[at] = byte;
            assert_eq!(subject.read(&snapshot, &mut [0; 32]), 6, "byte {at} {byte:#x}");
        }
        // A queue without its bits, bits without a queue, and any staged settings are fine.
        let mut snapshot = encode(&Counter::fresh());
        snapshot[..26].fill(0xff);
        snapshot[61] = 0xff;
        snapshot[65..].copy_from_slice(&[4, 4, 3]);
        assert_eq!(subject.read(&snapshot, &mut [0; 32]), 0);
    });
}

#[test]
fn mends_by_hand() {
    let mut other_stamp = acc(2);
    other_stamp[8..].fill(0xff);
    // Events, spacing, first, patch, then the span.
    let rows = [
        (4, 1, 1, vec![acc(9)], [2, 3, 2]),
        (4, 1, 1, vec![acc(2)], [2, 2, 1]),
        (4, 1, 1, vec![other_stamp], [2, 2, 1]),
        (4, 1, 3, vec![acc(9)], [4, 5, 1]),
        (4, 2, 0, vec![acc(9)], [1, 1, 2]),
        (4, 1, 0, vec![acc(1), acc(7), acc(3)], [1, 3, 3]),
        (4, 1, 0, vec![], [1, 1, 1]),
        (4, 1, 4, vec![], [5, 5, 0]),
        (4, 3, 3, vec![acc(9)], [2, 2, 0]),
        (0, 1, 0, vec![], [1, 1, 0]),
    ];
    on_each(|subject| {
        for (events, spacing, first, patch, want) in &rows {
            let bytes = counting(*events, *spacing);
            let patch = patch.as_flattened();
            let answer = Case::mend(&bytes, *first as u64, patch).answer(subject);
            assert_eq!((answer.status, answer.results.span), (0, *want));
            demand3::holds(subject, &bytes, *first, patch).unwrap();
        }
    });
}

/// Both bounds of request 8 are reached. The same events again, stamps or not, run at most one less
/// than n + 2K, which an empty run does with K = 1; with K past 1 it is two less.
#[test]
fn a_mend_runs_as_much_as_it_may() {
    // Events, spacing, first, how many, then the events run.
    let again = [
        (4, 1, 0, 0, 1),
        (4, 1, 1, 2, 2),
        (8, 4, 3, 2, 8),
        (12, 4, 3, 6, 12),
        (8, 4, 4, 4, 4),
        (9, 4, 8, 1, 0),
    ];
    // Events, spacing, first: a mend that no snapshot agrees with runs all.
    let all = [(4, 1, 0), (4, 2, 1), (4, 4, 3), (8, 4, 0)];
    on_each(|subject| {
        for (events, spacing, first, count, ran) in again {
            let bytes = counting(events, spacing);
            let parts = Parts::of(&bytes);
            let mut patch = bytes[parts.event(first)..parts.event(first + count)].to_vec();
            for stamp in [0, 0xff] {
                patch.as_chunks_mut::<12>().0.iter_mut().for_each(|event| event[8..].fill(stamp));
                let span = demand3::holds(subject, &bytes, first, &patch).unwrap();
                assert_eq!((span[2] as usize, ran < count + 2 * spacing), (ran, true));
            }
        }
        for (events, spacing, first) in all {
            let bytes = counting(events, spacing);
            let span = demand3::holds(subject, &bytes, first, &event(2, 5, 77)).unwrap();
            assert_eq!(span[2], events as u32);
        }
    });
}

#[test]
fn mend_of_an_untrue_table_goes_by_its_bytes() {
    let good = counting(4, 1);
    let parts = Parts::of(&good);
    on_each(|subject| {
        // A wrong snapshot is run over; the next one agrees.
        let mut bytes = good.clone();
        bytes[parts.snapshot(1) + 64] = 0xff;
        let answer = Case::mend(&bytes, 0, &[]).answer(subject);
        assert_eq!((answer.status, answer.results.span), (0, [1, 2, 2]));
        assert!(answer.buffer() == good);
        // A start that is not fresh is taken as it stands and stays.
        let mut bytes = good.clone();
        let start = encode(&Counter { levels: 5, ..Counter::fresh() });
        bytes[parts.snapshot(0)..][..68].copy_from_slice(&start);
        let answer = Case::mend(&bytes, 0, &[]).answer(subject);
        assert_eq!((answer.status, answer.results.span), (0, [1, 5, 4]));
        for j in 0..5 {
            let want = Counter { levels: 5, acc: j as i32, ..Counter::fresh() };
            assert!(answer.buffer()[parts.snapshot(j)..][..68] == encode(&want));
        }
    });
}

/// Each kind with the subs and values that the event table allows.
const LEGAL: [(u8, &[u8], i32, i32); 17] = [
    (0, &[0], 0, 0),
    (1, &[0], 0, 15),
    (2, &[1, 2, 3, 4], i32::MIN, i32::MAX),
    (2, &[5, 6], 0, 65535),
    (3, &[1, 2], -32768, 32767),
    (3, &[3], 0, 65535),
    (3, &[4], 0, 1),
    (4, &[0, 2], 0, 1),
    (4, &[5, 6, 7, 8, 9, 10], 0, 1),
    (4, &[1], 0, 0),
    (4, &[11, 12, 13, 14], 0, 0),
    (4, &[16, 17, 18], 0, 0),
    (5, &[0], i32::MIN, i32::MAX),
    (6, &[0], 0, 0),
    (7, &[0], 0, 0),
    (8, &[0], 0, 0),
    (9, &[0], 0, 65535),
];

#[test]
fn every_kind_and_sub_at_the_edges() {
    on_each(|subject| {
        for (kind, sub) in (0..=255).flat_map(|kind| (0..=255).map(move |sub| (kind, sub))) {
            let row = LEGAL.iter().find(|row| row.0 == kind && row.1.contains(&sub));
            for value in EDGES {
                let legal = row.is_some_and(|&(_, _, least, most)| (least..=most).contains(&value));
                let mut bytes = event(kind, sub, value);
                assert_eq!(subject.event_check(&bytes), legal.into(), "{bytes:?}");
                bytes[8..].fill(0xff);
                assert_eq!(subject.event_check(&bytes), legal.into(), "{bytes:?}");
                bytes[2 + value as usize % 2] = 1;
                assert_eq!(subject.event_check(&bytes), 0, "{bytes:?}");
            }
        }
    });
}

#[test]
fn a_full_night() {
    let mut rng = Rng::new(1);
    let events = image::events(&mut rng, MAX_EVENTS as usize);
    for spacing in [1, 4096] {
        let bytes = image::image(&events, spacing);
        let case = Case::replay(&bytes);
        let answer = case.answer(&Model);
        assert_eq!(answer.status, 0);
        case.expect(&UNDER_TEST, &answer).unwrap();
        for first in [0, MAX_EVENTS as u64 / 2, MAX_EVENTS as u64 - 1] {
            let case = Case::mend(answer.buffer(), first, &event(2, 5, 77));
            case.expect(&UNDER_TEST, &case.answer(&Model)).unwrap();
        }
    }
}
