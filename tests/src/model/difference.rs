//! The first place where two parts of bytes differ (document 02, request 3).

/// The least place within the shorter at which the bytes differ, its length if there is none.
pub fn first_difference(first: &[u8], second: &[u8]) -> usize {
    let shorter = first.len().min(second.len());
    first.iter().zip(second).position(|(one, other)| one != other).unwrap_or(shorter)
}
