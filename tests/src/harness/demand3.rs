//! Demand 3 on the subject alone: mending a true table equals replaying the changed image, and runs
//! as much as it says.

use super::case::{Answer, Case};
use super::ran;
use crate::generate::image::Parts;
use crate::subject::Subject;

fn check(holds: bool, claim: &str) -> Result<(), String> {
    holds.then_some(()).ok_or_else(|| format!("demand 3: {claim}"))
}

/// The answer to a call that may not be refused and may not touch more than it is lent.
fn answer(subject: &dyn Subject, case: Case) -> Result<Answer, String> {
    let answer = case.answer(subject);
    check(answer.status == 0, &format!("{:?} is refused", case.call))?;
    check(answer.stays_within(&case), &format!("{:?} touches a guard or the patch", case.call))?;
    Ok(answer)
}

/// Checks the claim for a valid image, which is given a true table first, and a patch of legal
/// events within it. Gives the mend's three numbers.
pub fn holds(subject: &dyn Subject, image: &[u8], first: usize, patch: &[u8]) -> Result<[u32; 3], String> {
    let replayed = answer(subject, Case::replay(image))?;
    let old = replayed.buffer();
    let parts = Parts::of(old);
    let end = first + patch.len() / 12;
    let start = first / parts.spacing;

    let mut changed = old.to_vec();
    changed[parts.event(first)..parts.event(end)].copy_from_slice(patch);
    let replayed = answer(subject, Case::replay(&changed))?;
    let want = replayed.buffer();
    let events_end = parts.snapshot(0);
    check(want[..events_end] == changed[..events_end], "replay changes header or events")?;

    let answer = answer(subject, Case::mend(old, first as u64, patch))?;
    let (mended, span) = (answer.buffer(), answer.results.span);
    check(mended == want, "the mended image is not the replayed one")?;
    for (from, to, part) in [
        (0, parts.event(first), "header or events before the run"),
        (parts.event(end), events_end, "events after the run"),
        (events_end, parts.snapshot(start + 1), "snapshots 0 to s"),
    ] {
        check(mended[from..to] == old[from..to], &format!("mending changes {part}"))?;
    }

    let snapshot = |j| parts.snapshot(j)..parts.snapshot(j + 1);
    let stop = (start + 1..parts.snapshots)
        .find(|&j| j * parts.spacing >= end && old[snapshot(j)] == want[snapshot(j)])
        .unwrap_or(parts.snapshots);
    check(span[0] as usize == start + 1, "the first number is not s + 1")?;
    check(span[1] as usize == stop, "the stop is not the least agreement")?;
    ran::holds(parts, first, span)?;
    let same = ran::again(&old[parts.event(first)..parts.event(end)], patch).is_some();
    check(!same || ran::spared(parts, end - first, span) > 0, "the same events again run n + 2K or more")?;
    Ok(span)
}
