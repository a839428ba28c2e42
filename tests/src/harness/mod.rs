//! Runs generated cases on a subject and on the model, and counts what they reach.

pub mod alone;
pub mod case;
pub mod demand3;
pub mod ran;
pub mod receiver;
pub mod slip;
pub mod tally;

use std::ops::Range;

use case::{Answer, Call, Case, PAINT};
use receiver::Phase;
use tally::Tally;

use crate::generate::reader;
use crate::generate::{
    change_length, drawing, event, image, loading, pair, parts, patch, sampling, state, Rng,
};
use crate::model::event::{row, Event};
use crate::model::{counter::Counter, snapshot};
use crate::subject::{Model, Subject};

/// Runs the cases numbered `cases` of a seed; the first that fails is named.
pub fn run(subject: &dyn Subject, seed: u64, cases: Range<u64>) -> Result<Tally, String> {
    run_each(subject, seed, cases, any_call)
}

/// The same with cases of demand 3 only.
pub fn run_demand_3(subject: &dyn Subject, seed: u64, cases: Range<u64>) -> Result<Tally, String> {
    run_each(subject, seed, cases, demand_3)
}

/// The same with cases of two cuttings only.
pub fn run_cuttings(subject: &dyn Subject, seed: u64, cases: Range<u64>) -> Result<Tally, String> {
    run_each(subject, seed, cases, cuttings)
}

fn run_each(
    subject: &dyn Subject,
    seed: u64,
    cases: Range<u64>,
    one: fn(&dyn Subject, &mut Rng, &mut Tally) -> Result<(), String>,
) -> Result<Tally, String> {
    let mut tally = Tally::default();
    for number in cases {
        let mut rng = Rng::of_case(seed, number);
        one(subject, &mut rng, &mut tally)
            .map_err(|failure| format!("seed {seed:#x}, case {number}: {failure}"))?;
    }
    Ok(tally)
}

fn any_call(subject: &dyn Subject, rng: &mut Rng, tally: &mut Tally) -> Result<(), String> {
    match rng.below(28) {
        0 => check_event(subject, rng, tally),
        1 => read(subject, rng, tally),
        2..=6 => step(subject, rng, tally),
        7..=9 => replay(subject, rng, tally),
        10..=13 => mend(subject, rng, tally),
        14 | 15 => demand_3(subject, rng, tally),
        16..=18 => compare_nights(subject, rng, tally),
        19 => rest(subject, rng, tally),
        20..=23 => draw(subject, rng, tally),
        24 | 25 => first_difference(subject, rng, tally),
        _ => read_on(subject, rng, tally),
    }
}

/// Compares the subject's answer with the model's, which must leave all as it was if it refuses, but
/// for a reader that remembers it.
fn compare(subject: &dyn Subject, case: &Case, tally: &mut Tally) -> Result<Answer, String> {
    let want = case.answer(&Model);
    let refuses = !matches!(case.call, Call::EventCheck | Call::Rest | Call::FirstDifference);
    if refuses && want.status != 0 {
        let left = match want.refusal() {
            Some(refusal) if case.call.of_reader() && refusal.number != 9 => case.remembered(refusal),
            _ => Answer::unchanged(case, want.status),
        };
        if want != left {
            return Err(format!("the model refuses and writes: {case:?}"));
        }
    }
    case.expect(subject, &want)?;
    tally.answer(case, &want);
    Ok(want)
}

/// An event for a call that takes one: mostly legal, at times damaged or of another length.
fn event_input(rng: &mut Rng, damaged: usize) -> Vec<u8> {
    let mut bytes =
        if rng.once_in(damaged) { event::damaged(rng).to_vec() } else { event::legal(rng).to_vec() };
    if rng.once_in(32) {
        change_length(rng, &mut bytes);
    }
    bytes
}

fn check_event(subject: &dyn Subject, rng: &mut Rng, tally: &mut Tally) -> Result<(), String> {
    let case = Case::event_check(&event_input(rng, 2));
    compare(subject, &case, tally).map(drop)
}

fn read(subject: &dyn Subject, rng: &mut Rng, tally: &mut Tally) -> Result<(), String> {
    let case = Case::read(&state::lent(rng));
    let answer = compare(subject, &case, tally)?;
    tally.read(&case, &answer);
    Ok(())
}

fn step(subject: &dyn Subject, rng: &mut Rng, tally: &mut Tally) -> Result<(), String> {
    let taken = match rng.below(8) {
        0 | 1 => Some(sampling::any(rng)),
        2 => Some(loading::any(rng)),
        _ => None,
    };
    let case = match taken {
        Some((snapshot, event)) => Case::step(&snapshot, &event),
        None => Case::step(&state::lent(rng), &event_input(rng, 8)),
    };
    let answer = compare(subject, &case, tally)?;
    if answer.status == 0 {
        let mut counter = snapshot::decode(case.buffer[..].try_into().unwrap());
        tally.event(&mut counter, Event::from_bytes(case.input[..].try_into().unwrap()));
    }
    Ok(())
}

fn replay(subject: &dyn Subject, rng: &mut Rng, tally: &mut Tally) -> Result<(), String> {
    let (mut bytes, _) = image::valid(rng);
    if rng.once_in(3) {
        image::damage(rng, &mut bytes);
    }
    let case = Case::replay(&bytes);
    let answer = compare(subject, &case, tally)?;
    if answer.status == 0 {
        let parts = image::Parts::of(&bytes);
        let mut counter = Counter::fresh();
        for event in row(&bytes[parts.event(0)..parts.snapshot(0)]) {
            tally.event(&mut counter, Event::from_bytes(event));
        }
    }
    Ok(())
}

fn mend(subject: &dyn Subject, rng: &mut Rng, tally: &mut Tally) -> Result<(), String> {
    let (mut bytes, table) = image::valid(rng);
    let (first, patch) = patch::any(rng, &bytes, image::Parts::of(&bytes));
    if rng.once_in(8) {
        image::damage(rng, &mut bytes);
    }
    let case = Case::mend(&bytes, first, &patch);
    let answer = compare(subject, &case, tally)?;
    if answer.status == 0 {
        // Another K may be as good.
        let parts = image::Parts::of(&bytes);
        ran::holds(parts, first as usize, answer.results.span)?;
        tally.mended(table, parts, answer.results.span);
    }
    Ok(())
}

fn demand_3(subject: &dyn Subject, rng: &mut Rng, tally: &mut Tally) -> Result<(), String> {
    let bytes = image::with_true_table(rng);
    let parts = image::Parts::of(&bytes);
    let (first, count) = patch::run(rng, parts);
    let patch = patch::legal(rng, &bytes, (first, count)).into_flattened();
    let span = demand3::holds(subject, &bytes, first, &patch)?;
    tally.demand_3(parts, span);
    if let Some(stamps) = ran::again(&bytes[parts.event(first)..parts.event(first + count)], &patch) {
        tally.again(parts, ran::spared(parts, count, span), stamps);
    }
    Ok(())
}

fn compare_nights(subject: &dyn Subject, rng: &mut Rng, tally: &mut Tally) -> Result<(), String> {
    let [first, second] = pair::any(rng);
    let case = Case::compare(&first, &second, pair::row_length(rng, &first, &second));
    let answer = compare(subject, &case, tally)?;
    tally.compared(&case, &answer);
    Ok(())
}

fn rest(subject: &dyn Subject, rng: &mut Rng, tally: &mut Tally) -> Result<(), String> {
    let [first, second] = pair::any_lengths(rng);
    let case = Case::rest(&first, &second);
    let answer = compare(subject, &case, tally)?;
    tally.rest(&case, &answer);
    Ok(())
}

fn draw(subject: &dyn Subject, rng: &mut Rng, tally: &mut Tally) -> Result<(), String> {
    let (snapshot, events) = drawing::any(rng);
    let case = Case::draw(&snapshot, &events, drawing::row_length(rng, &events));
    let answer = compare(subject, &case, tally)?;
    tally.drawn(&case, &answer);
    Ok(())
}

fn first_difference(subject: &dyn Subject, rng: &mut Rng, tally: &mut Tally) -> Result<(), String> {
    let case = if rng.once_in(4) {
        let (memory, parts) = parts::shared(rng, PAINT);
        Case::first_difference_within(&memory, parts)
    } else {
        let [first, second] = parts::apart(rng, PAINT);
        Case::first_difference(&first, &second)
    };
    let answer = compare(subject, &case, tally)?;
    tally.difference(&case, &answer);
    Ok(())
}

/// One call on a reader, at times a bent one; seldom the bytes come in chunks to the end.
fn read_on(subject: &dyn Subject, rng: &mut Rng, tally: &mut Tally) -> Result<(), String> {
    match rng.below(64) {
        0..=2 => return receive(subject, rng, tally),
        3 | 4 => return cuttings(subject, rng, tally),
        _ => {}
    }
    let (mut reader, mut chunk) = reader::well_formed(rng);
    reader::chunk(rng, &mut chunk);
    let bent = rng.once_in(4);
    if bent {
        reader::bend(rng, &mut reader);
    }
    let buffer = reader::buffer(rng);
    let case = if rng.once_in(4) {
        Case::reader_end(&reader, &buffer)
    } else {
        Case::reader_feed(&reader, &chunk, &buffer)
    };
    let answer = compare(subject, &case, tally)?;
    let fault = reader::fault(&reader);
    if (answer.number() == 9) != (fault.is_some() || buffer.len() != snapshot::SIZE) {
        return Err(format!(
            "the model takes a reader for well formed that is not, or not one that is: {case:?}"
        ));
    }
    if bent {
        tally.bent(fault.is_none());
    }
    match fault {
        None => tally.reader(&case, &answer, Phase::of(&reader)),
        Some(rule) if buffer.len() == snapshot::SIZE => tally.ill_formed(&case, rule),
        Some(_) => {}
    }
    Ok(())
}

fn receive(subject: &dyn Subject, rng: &mut Rng, tally: &mut Tally) -> Result<(), String> {
    let bytes = reader::sent(rng);
    let cutting = reader::cutting(rng, bytes.len());
    let answer = |case: &Case, phase| {
        let answer = compare(subject, case, tally)?;
        tally.reader(case, &answer, phase);
        Ok(answer)
    };
    receiver::receive(&bytes, &cutting, answer).map(drop)
}

fn cuttings(subject: &dyn Subject, rng: &mut Rng, tally: &mut Tally) -> Result<(), String> {
    let bytes = reader::sent(rng);
    let cuttings = [(); 2].map(|()| reader::cutting(rng, bytes.len()));
    let number = receiver::holds(subject, &bytes, cuttings.each_ref().map(|cutting| &cutting[..]))?;
    tally.cuttings(number);
    Ok(())
}
