//! The library and the model side by side on the same inputs, in one run: replay, mending,
//! the image's check and single steps over a full night, mends by the events that they run, the
//! night read in chunks, also beside replay, the night drawn, two nights compared, and the first
//! difference of two parts of bytes, also beside memcmp. It asserts results, never times.

mod night;
mod parts;
mod reading;
mod timing;

use std::cell::Cell;
use std::env;

use hsc_tests::generate::event::event;
use hsc_tests::generate::image::Parts;
use hsc_tests::model::counter::Counter;
use hsc_tests::model::event::Bytes;
use hsc_tests::model::snapshot::{encode, SIZE};
use hsc_tests::model::trace::MAX_EVENTS;
use hsc_tests::subject::{on_each, Model, Subject, UNDER_TEST_NAME};

use timing::{compare, in_turn, line, timed, ROUNDS, SIDES};

/// The place of a pulse past the events that load settings.
const PULSE: usize = 20;

/// A write of the staged LPO, never the same value twice. Where no later event writes it, no later
/// snapshot agrees.
fn next_word(word: &Cell<i32>) -> Bytes {
    event(2, 6, word.replace((word.get() + 1) % 65536))
}

fn images(spacing: usize) {
    let mut image = night::image(spacing);
    let parts = Parts::of(&image);
    println!("K {spacing}, image of {:.1} MB", image.len() as f64 / 1e6);

    compare("replay", |subject| {
        let mut last = [0; 68];
        assert_eq!(subject.replay(&mut image, &mut last), 0);
        last
    });

    let mut mend = |name, prepare: &dyn Fn(&mut [u8]), first: usize, patch: &dyn Fn() -> Vec<u8>, stop| {
        in_turn(name, |side| {
            prepare(&mut image);
            let (patch, mut span) = (patch(), [0; 3]);
            let (seconds, status) = timed(|| SIDES[side].mend(&mut image, first as u64, &patch, &mut span));
            assert_eq!((status, span[1] as usize), (0, stop), "{name}: the stop");
            (seconds, span)
        });
    };
    let as_it_is = |_: &mut [u8]| {};

    // No event is run and nothing is written: header, events and one snapshot are checked.
    mend("image check (empty mend at E)", &as_it_is, parts.events, &Vec::new, parts.snapshots);

    let middle = parts.events / 2;
    let same = night::events()[middle..middle + 64].as_flattened().to_vec();
    let stop = (middle + 64).div_ceil(spacing);
    mend("mend, stops at once", &as_it_is, middle, &|| same.clone(), stop);

    let word = Cell::new(0);
    mend("mend, runs to the end", &as_it_is, PULSE, &|| next_word(&word).to_vec(), parts.snapshots);

    // The last byte of each snapshot past the first, its second waiting cause, is none.
    let bend = |image: &mut [u8]| {
        (1..parts.snapshots).for_each(|index| image[parts.snapshot(index) + SIZE - 1] ^= 0x80);
    };
    mend("mend, each last byte differs", &bend, 0, &Vec::new, parts.snapshots);
    let mut replayed = image.clone();
    assert_eq!(Model.replay(&mut replayed, &mut [0; SIZE]), 0);
    assert!(image == replayed, "the table is not true");

    reading::chunks(&mut image);
}

/// Mends by the events that they run, at one spacing: what the check of the image costs, and how
/// much each event adds.
fn price() {
    const SPACING: usize = 64;
    const PARTS: usize = 8;
    let mut image = night::image(SPACING);
    assert_eq!(Model.replay(&mut image, &mut [0; SIZE]), 0);
    let parts = Parts::of(&image);
    println!("K {SPACING}, mends of one event or none by the events that they run");

    // The longest run goes first, so that no later event writes LPO.
    let word = Cell::new(0);
    let points: Vec<(f64, f64)> = (0..=PARTS)
        .rev()
        .map(|part| {
            let ran = parts.events / PARTS * part;
            let first = (parts.events - ran).max(PULSE);
            let name = format!("mend, runs {ran} events");
            let library = in_turn(&name, |side| {
                let patch = next_word(&word);
                let patch = if ran > 0 { &patch[..] } else { &[] };
                let mut span = [0; 3];
                let (seconds, status) =
                    timed(|| SIDES[side].mend(&mut image, first as u64, patch, &mut span));
                assert_eq!((status, span[2] as usize), (0, ran), "{name}: the events run");
                (seconds, span)
            });
            (ran as f64, library)
        })
        .collect();
    let (check, each) = line(&points);
    println!(
        "  library: {:.2} ms and {:.2} ns for each event run, by least squares over the least times",
        1e3 * check,
        1e9 * each
    );
}

fn steps() {
    let events = night::events();
    println!("single calls over the night's events");
    compare("step", |subject| {
        let mut snapshot = encode(&Counter::fresh());
        for event in &events {
            assert_eq!(subject.step(&mut snapshot, event), 0);
        }
        snapshot
    });
    compare("event check", |subject| events.iter().map(|event| subject.event_check(event)).sum::<u32>());
}

fn curve() {
    let events = night::events().into_flattened();
    println!("the night's {MAX_EVENTS} events drawn");

    let draw = |subject: &dyn Subject, row: &mut [i32]| {
        let mut snapshot = encode(&Counter::fresh());
        assert_eq!(subject.draw(&mut snapshot, &events, row), 0);
        snapshot
    };
    let mut row = vec![0; MAX_EVENTS as usize];
    compare("draw", |subject| draw(subject, &mut row));
    on_each(|subject| {
        let mut other = vec![0; row.len()];
        draw(subject, &mut other);
        assert!(row == other, "draw: the rows differ");
    });
}

fn nights() {
    let first = night::events().into_flattened();
    println!("two nights of {MAX_EVENTS} events each");

    let compare_nights = |name, differs: fn(u32) -> bool| {
        let second = night::copy(differs).into_flattened();
        let places: Vec<u32> = (0..MAX_EVENTS).filter(|&place| differs(place)).collect();
        let list = |subject: &dyn Subject, row: &mut [u32]| {
            let mut count = 0;
            assert_eq!(subject.compare(&first, &second, row, &mut count), 0);
            count
        };
        let mut row = vec![0; places.len()];
        compare(name, |subject| list(subject, &mut row));
        on_each(|subject| {
            let mut row = vec![0; places.len()];
            list(subject, &mut row);
            assert!(row == places, "{name}: the places");
        });
    };
    compare_nights("compare, differ nowhere", |_| false);
    compare_nights("compare, 1 place in 1000", |place| place % 1000 == 0);
    compare_nights("compare, differ everywhere", |_| true);

    // A million calls: the first grows from nothing to the night while the second shrinks.
    let second = first.clone();
    compare("rest", |subject| {
        let (mut part, mut sum) = ([0; 2], 0);
        for length in (0..first.len()).step_by(11) {
            let trace = subject.rest(&first[..length], &second[length..], &mut part);
            sum += u64::from(trace) * part[0] + part[1];
        }
        sum
    });
}

fn main() {
    if env::args().nth(1).is_some_and(|argument| argument == parts::MEMCMP_ALONE) {
        return parts::beside_memcmp();
    }
    println!("library: {UNDER_TEST_NAME}; model: the model of the documents; memcmp: the C library's");
    println!("columns: the library's and the other's median of {ROUNDS} rounds, then library/other twice:");
    println!(
        "the median of the rounds' ratios, and the ratio of the two least times; the other is the model"
    );
    println!("where none is named");
    println!("buffers are warm: both sides work on one image, and each ran once before the timing;");
    println!("what the caches do not hold of it comes from memory on both sides; two parts of bytes each");
    println!(
        "begin at a multiple of 64; where each last byte differs, it is made to before each mend, untimed;"
    );
    println!(
        "1-byte chunks are of an image of the night's first {} events; replay is the library's",
        reading::FIRST_EVENTS
    );
    for spacing in [1, 64, 4096] {
        images(spacing);
    }
    price();
    steps();
    curve();
    nights();
    parts::last_byte();
    parts::first_byte();
    parts::beside_narrow_memcmp();
}
