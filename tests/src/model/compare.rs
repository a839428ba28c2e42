//! Where two nights part, and the unread rest of the longer (document 02, request 1).

use super::event;
use super::trace::MAX_EVENTS;
use super::{Refusal, WRONG_SIZE};

/// The events of a trace: refusal 9 for a length that is no whole number of events or too many.
fn events(trace: &[u8]) -> Result<&[event::Bytes], Refusal> {
    let (events, rest) = trace.as_chunks();
    if rest.is_empty() && events.len() <= MAX_EVENTS as usize {
        Ok(events)
    } else {
        Err(WRONG_SIZE)
    }
}

/// Lists the places within the shorter trace at which the events differ, stamps disregarded,
/// and returns how many they are.
pub fn compare(first: &[u8], second: &[u8], row: &mut [u32]) -> Result<u32, Refusal> {
    let (first, second) = (events(first)?, events(second)?);
    for (trace, events) in [(1, first), (2, second)] {
        if let Some(place) = event::first_illegal(events) {
            return Err(Refusal::new(5, place).of_trace(trace));
        }
    }
    // Up to the stamp; the two zeros of legal events are equal.
    let places: Vec<u32> = (0..)
        .zip(first.iter().zip(second))
        .filter(|(_, (a, b))| a[..8] != b[..8])
        .map(|(place, _)| place)
        .collect();
    row.get_mut(..places.len()).ok_or(Refusal::new(12, 0))?.copy_from_slice(&places);
    Ok(places.len() as u32)
}

/// The longer trace, 1 if neither is, and its part past the shorter's length: the place of the
/// part's first byte and its length.
pub fn rest(first: &[u8], second: &[u8]) -> (u32, [u64; 2]) {
    let (first, second) = (first.len() as u64, second.len() as u64);
    if first >= second {
        (1, [second, first - second])
    } else {
        (2, [first, second - first])
    }
}
