//! Wrong counts of the events that a mend ran (document 02, request 8).

use crate::generate::image::Parts;

#[derive(Clone, Copy, Debug)]
pub enum Running {
    /// Tells the stop.
    Stop,
    /// Forgets K: tells to how many snapshots it came.
    SpacingForgotten,
    /// Tells how many snapshots it wrote.
    SnapshotsWritten,
    /// Goes on to the stop where it is the table's end, past the last snapshot.
    PastEnd,
    /// Counts from the run's first place, and not from the snapshot before it.
    FromFirst,
    /// Counts to the run's end, and not to the snapshot past it.
    ToRunEnd,
    /// Tells how many events the patch has.
    PatchEvents,
    /// Tells what there was to run, wherever it stopped.
    NeverStopped,
    /// Tells nothing.
    Untold,
}

impl Running {
    pub const ALL: [Running; 9] = [
        Running::Stop,
        Running::SpacingForgotten,
        Running::SnapshotsWritten,
        Running::PastEnd,
        Running::FromFirst,
        Running::ToRunEnd,
        Running::PatchEvents,
        Running::NeverStopped,
        Running::Untold,
    ];

    /// What is told by the wrong rule of a mend of so many events from `first`, in the place of the
    /// third number; `painted` is what stood there.
    pub fn told(self, parts: Parts, first: usize, count: usize, span: [u32; 3], painted: u32) -> u32 {
        let [compared, stop, ran] = span.map(|number| number as usize);
        let (start, end, last) = (compared - 1, first + count, parts.snapshots - 1);
        let wrong = match self {
            Running::Stop => stop,
            Running::SpacingForgotten => stop.min(last) - start,
            Running::SnapshotsWritten => stop - compared,
            Running::PastEnd => (stop - start) * parts.spacing,
            Running::FromFirst => ran.saturating_sub(first % parts.spacing),
            Running::ToRunEnd => end - start * parts.spacing,
            Running::PatchEvents => count,
            Running::NeverStopped => (last - start) * parts.spacing,
            Running::Untold => painted as usize,
        };
        wrong as u32
    }
}
