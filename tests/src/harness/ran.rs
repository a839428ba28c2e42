//! How much a mend ran, on the subject alone.

use crate::generate::image::Parts;
use crate::model::event::{row, STAMP};

/// Checks the number for any table: the smaller of the stop and S - 1, less s, times K, and never
/// more than E.
pub fn holds(parts: Parts, first: usize, span: [u32; 3]) -> Result<(), String> {
    let [_, stop, ran] = span.map(|number| number as usize);
    let reached = stop.min(parts.snapshots - 1);
    let want = reached.saturating_sub(first / parts.spacing) * parts.spacing;
    if ran != want || ran > parts.events {
        return Err(format!("events run: {ran} of {}, stop {stop}, expected {want}", parts.events));
    }
    Ok(())
}

/// How many events a mend of a true table runs less than n plus twice K; where its patch holds the
/// events that stand there already, there is no 0.
pub fn spared(parts: Parts, count: usize, span: [u32; 3]) -> usize {
    (count + 2 * parts.spacing).saturating_sub(span[2] as usize)
}

/// Whether a patch holds a run's own events, and then whether it has other stamps.
pub fn again(run: &[u8], patch: &[u8]) -> Option<bool> {
    let same = row(run).iter().zip(row(patch)).all(|(old, new)| old[..STAMP] == new[..STAMP]);
    same.then_some(run != patch)
}
