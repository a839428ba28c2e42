//! Document 02, request 2: its sentences by hand, more events than an image may have, and what
//! holds of any drawing on a subject alone.

use hsc_tests::generate::event::{damaged, event, legal, restamp};
use hsc_tests::generate::image::{self, Parts};
use hsc_tests::generate::state::{self, loaded, p};
use hsc_tests::generate::{drawing, Rng};
use hsc_tests::harness::alone::{answer, generated};
use hsc_tests::harness::case::Case;
use hsc_tests::model::counter::Counter;
use hsc_tests::model::event::{row, Bytes};
use hsc_tests::model::settings::Settings;
use hsc_tests::model::snapshot::encode;
use hsc_tests::model::trace::MAX_EVENTS;
use hsc_tests::model::Refusal;
use hsc_tests::subject::{on_each, Subject};

const MIN: i32 = i32::MIN;
const MAX: i32 = i32::MAX;
/// ACC among the fields of a reading.
const ACC: usize = 18;

/// The snapshot after single steps, and the accumulator that is read after each.
fn stepped(subject: &dyn Subject, snapshot: &[u8], events: &[u8]) -> (Vec<u8>, Vec<i32>) {
    let mut snapshot = snapshot.to_vec();
    let mut fields = [0; 32];
    let mut numbers = Vec::new();
    for event in row(events) {
        assert_eq!(subject.step(&mut snapshot, event), 0);
        assert_eq!(subject.read(&snapshot, &mut fields), 0);
        numbers.push(fields[ACC]);
    }
    (snapshot, numbers)
}

/// Draws the events and expects what single steps leave and show.
fn expect_steps(subject: &dyn Subject, snapshot: &[u8], events: &[u8]) {
    let (end, numbers) = stepped(subject, snapshot, events);
    let case = Case::draw(snapshot, events, numbers.len());
    case.expect(subject, &case.drawn(&end, &numbers)).unwrap();
}

/// Draws the events, from none of them to all, and expects as many of the numbers.
fn expect_curve(subject: &dyn Subject, counter: Counter, events: &[Bytes], numbers: &[i32]) {
    let snapshot = encode(&counter);
    for count in 0..=numbers.len() {
        let events = events[..count].as_flattened();
        let (end, _) = stepped(subject, &snapshot, events);
        let case = Case::draw(&snapshot, events, count);
        case.expect(subject, &case.drawn(&end, &numbers[..count])).unwrap();
    }
}

#[test]
fn samples_by_hand() {
    let mode_0 = Settings { pfn: 3, hip: 3, ovf: 10, ..Settings::default() };
    let mode_3 = Settings { mode: 3, ..p() };
    let widest = Settings { hip: MAX, ovf: MAX, lop: MIN, unf: MIN, ..p() };
    // The levels, and the accumulator after each.
    let rows: [(Counter, &[i32], &[i32]); 5] = [
        // Up onto HIP, to OVF and past it, then down past UNF.
        (loaded(p(), 3), &[1, 0, 1, 0, 1, 0, 3], &[4, 4, 5, 5, -3, -3, 5]),
        // Onto HIP in mode 0.
        (loaded(mode_0, 1), &[1, 0, 1, 0, 1], &[2, 2, 0, 0, 1]),
        // The ends of 32 bits.
        (loaded(widest, MAX - 1), &[1, 0, 1, 0, 3], &[MAX, MAX, MIN, MIN, MAX]),
        // A reset, a count, a hold.
        (loaded(mode_3, 2), &[4, 0, 1, 0, 9], &[0, 0, 1, 1, 1]),
        // Nothing loaded.
        (Counter::fresh(), &[1, 0, 3], &[0, 0, 0]),
    ];
    on_each(|subject| {
        for (counter, levels, numbers) in rows {
            let events: Vec<Bytes> = levels.iter().map(|&levels| event(1, 0, levels)).collect();
            expect_curve(subject, counter, &events, numbers);
        }
    });
}

#[test]
fn other_events_by_hand() {
    // ACC is written, which raises nothing, and counted on from there.
    let written = [event(5, 0, 4), event(5, 0, MIN), event(5, 0, MAX), event(1, 0, 1)];
    // Every other kind leaves ACC, and CE off stops the count.
    let still = [
        event(0, 0, 0),
        event(2, 1, 3),
        event(3, 1, 9),
        event(4, 5, 0),
        event(1, 0, 1),
        event(6, 0, 0),
        event(7, 0, 0),
        event(8, 0, 0),
        event(9, 0, 3),
    ];
    // A load among the events.
    let load = [event(3, 1, 3), event(3, 2, 2), event(4, 5, 1), event(4, 6, 1), event(1, 0, 3)];
    on_each(|subject| {
        expect_curve(subject, loaded(p(), 0), &written, &[4, MIN, MAX, -3]);
        expect_curve(subject, loaded(p(), 1), &still, &[1; 9]);
        expect_curve(subject, Counter::fresh(), &load, &[0, 0, 0, 0, -1]);
    });
}

#[test]
fn refusals() {
    let fresh = encode(&Counter::fresh());
    let bad = encode(&Counter { levels: 16, ..Counter::fresh() });
    let long = [&fresh[..], &fresh].concat();
    let [acc, blank, other] = [event(5, 0, 7), event(0, 0, 0), event(10, 0, 0)];
    let legal = [acc, blank, acc].concat();
    let first = [other, blank, acc].concat();
    let middle = [acc, other, acc].concat();
    let last = [acc, blank, other].concat();
    let all = [other, other, other].concat();
    let size = Refusal::new(9, 0);
    let illegal = |place| Refusal::new(5, place);
    let ill_formed = Refusal::new(6, 0);
    let rows: [(&[u8], &[u8], usize, Refusal); 33] = [
        (&[], &legal, 3, size),
        (&fresh[..67], &legal, 3, size),
        (&long[..69], &legal, 3, size),
        (&long, &legal, 3, size),
        (&[], &[], 0, size),
        (&fresh[..67], &[], 0, size),
        (&fresh, &legal[..1], 0, size),
        (&fresh, &legal[..11], 0, size),
        (&fresh, &legal[..11], 1, size),
        (&fresh, &legal[..13], 1, size),
        (&fresh, &legal[..35], 2, size),
        (&fresh, &legal[..35], 3, size),
        (&fresh, &legal, 0, size),
        (&fresh, &legal, 2, size),
        (&fresh, &legal, 4, size),
        // The row's bytes, the events' bytes.
        (&fresh, &legal, 12, size),
        (&fresh, &legal, 36, size),
        (&fresh, &[], 1, size),
        // 9 goes before 5 and 6.
        (&fresh[..67], &all, 3, size),
        (&bad[..67], &legal, 3, size),
        (&bad, &all[..35], 2, size),
        (&bad, &all, 2, size),
        (&bad, &all, 4, size),
        (&bad, &[], 1, size),
        (&fresh, &first, 3, illegal(0)),
        (&fresh, &middle, 3, illegal(1)),
        (&fresh, &last, 3, illegal(2)),
        (&fresh, &all, 3, illegal(0)),
        // 5 goes before 6.
        (&bad, &first, 3, illegal(0)),
        (&bad, &middle, 3, illegal(1)),
        (&bad, &last, 3, illegal(2)),
        (&bad, &legal, 3, ill_formed),
        (&bad, &[], 0, ill_formed),
    ];
    on_each(|subject| {
        for (snapshot, events, row, refusal) in rows {
            let case = Case::draw(snapshot, events, row);
            case.expect(subject, &case.refused_by(refusal)).unwrap();
        }
    });
}

#[test]
fn more_events_than_an_image_may_have() {
    let count = 2 * MAX_EVENTS as usize;
    let fresh = encode(&Counter::fresh());
    let mut events = image::events(&mut Rng::new(1), count).into_flattened();
    on_each(|subject| expect_steps(subject, &fresh, &events));
    events[12 * (count - 1)] = 10;
    on_each(|subject| {
        let case = Case::draw(&fresh, &events, count);
        case.expect(subject, &case.refused(5, count - 1)).unwrap();
    });
}

/// On the model's status alone; `c/past.c` has the archive's, over 48 GiB of events.
#[test]
fn a_place_past_32_bits_stands_as_the_largest() {
    let most = u32::MAX as usize;
    assert_eq!(Refusal::new(5, most - 1).status(), 0xffff_fffe_0000_0005);
    for place in [most, most + 1, usize::MAX] {
        assert_eq!(Refusal::new(5, place).status(), 0xffff_ffff_0000_0005);
    }
}

#[test]
fn a_drawing_is_single_steps() {
    generated(|subject, rng| {
        let (snapshot, events) = drawing::legal(rng);
        expect_steps(subject, &snapshot, events.as_flattened());
    });
}

/// And refused as it is.
#[test]
fn one_event_is_drawn_as_it_is_stepped() {
    generated(|subject, rng| {
        let snapshot = state::lent(rng);
        let event: Bytes = if rng.once_in(4) { damaged(rng) } else { legal(rng) };
        let step = answer(subject, Case::step(&snapshot, &event));
        if step.status == 0 {
            expect_steps(subject, &snapshot, &event);
        } else {
            let case = Case::draw(&snapshot, &event, 1);
            case.expect(subject, &case.refused(step.number(), step.place())).unwrap();
        }
    });
}

#[test]
fn no_events_are_refused_as_a_reading_is() {
    generated(|subject, rng| {
        let snapshot = state::lent(rng);
        let read = answer(subject, Case::read(&snapshot));
        let case = Case::draw(&snapshot, &[], 0);
        case.expect(subject, &case.refused(read.number(), read.place())).unwrap();
    });
}

#[test]
fn two_parts_are_drawn_as_the_whole() {
    generated(|subject, rng| {
        let (snapshot, events) = drawing::legal(rng);
        let cut = rng.below(events.len() + 1);
        let draw = |snapshot: &[u8], events: &[Bytes]| {
            answer(subject, Case::draw(snapshot, events.as_flattened(), events.len()))
        };
        let whole = draw(&snapshot, &events);
        let first = draw(&snapshot, &events[..cut]);
        let second = draw(first.buffer(), &events[cut..]);
        assert_eq!([whole.status, first.status, second.status], [0; 3]);
        assert_eq!(whole.buffer(), second.buffer());
        assert_eq!(whole.curve(), [first.curve(), second.curve()].concat());
    });
}

#[test]
fn an_image_is_drawn_to_the_end_of_its_replay() {
    generated(|subject, rng| {
        let image = image::with_true_table(rng);
        let parts = Parts::of(&image);
        let events = &image[parts.event(0)..parts.snapshot(0)];
        let replayed = answer(subject, Case::replay(&image));
        let drawn = answer(subject, Case::draw(&encode(&Counter::fresh()), events, parts.events));
        assert_eq!((replayed.status, drawn.status), (0, 0));
        assert_eq!(drawn.buffer(), replayed.results.last);
    });
}

#[test]
fn stamps_have_no_say() {
    generated(|subject, rng| {
        let (snapshot, mut events) = drawing::any(rng);
        let row = drawing::row_length(rng, &events);
        let old = answer(subject, Case::draw(&snapshot, &events, row));
        restamp(rng, &mut events);
        let new = answer(subject, Case::draw(&snapshot, &events, row));
        assert_eq!((old.status, old.buffer(), old.curve()), (new.status, new.buffer(), new.curve()));
    });
}
