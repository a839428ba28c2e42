//! Wrong rules of a cause that comes (document 02, request 7).

use crate::model::counter::Counter;
use crate::model::flags::UIL;
use crate::model::Fate;

#[derive(Clone, Copy, Debug)]
pub enum Posting {
    /// Adds or loses a cause that waits, as before the request.
    NeverMerges,
    /// Sets UIL for a cause that waits.
    MergedIsLost,
    /// Puts no outputs for a cause that waits.
    MergedIsSilent,
    /// Moves a cause that waits to the end.
    MovedToEnd,
    /// Compares with the first that waits alone.
    FirstAlone,
    /// Loses a cause where two wait, though it is one of them.
    RoomFirst,
    /// Merges a cause with the running one.
    MergedWithRunning,
    /// Loses a cause that runs.
    RunningIsLost,
    /// Never sets UIL.
    NeverLost,
}

impl Posting {
    pub const ALL: [Posting; 9] = [
        Posting::NeverMerges,
        Posting::MergedIsLost,
        Posting::MergedIsSilent,
        Posting::MovedToEnd,
        Posting::FirstAlone,
        Posting::RoomFirst,
        Posting::MergedWithRunning,
        Posting::RunningIsLost,
        Posting::NeverLost,
    ];

    /// The counter after a sample by the wrong rule.
    pub fn sampled(self, before: Counter, levels: u8) -> Counter {
        let mut right = before;
        let Some((cause, fate)) = right.sample(levels) else {
            return right;
        };
        let waiting = |waiting: [u8; 2]| Counter { waiting, ..right };
        let lost = Counter { flags: right.flags | UIL, ..right };
        let [first, second] = before.waiting;
        let runs = before.running == cause;
        match (self, fate) {
            (Posting::NeverMerges, Fate::Merged) if second == 0 => waiting([first, cause]),
            (Posting::NeverMerges | Posting::MergedIsLost, Fate::Merged) => lost,
            (Posting::MergedIsSilent, Fate::Merged) => Counter { outputs: before.outputs, ..right },
            (Posting::MovedToEnd, Fate::Merged) if second != 0 && first == cause => waiting([second, first]),
            (Posting::FirstAlone, Fate::Merged) if second == cause => lost,
            (Posting::RoomFirst, Fate::Merged) if second != 0 => lost,
            (Posting::MergedWithRunning, Fate::Waited) if runs => waiting(before.waiting),
            (Posting::RunningIsLost, Fate::Waited) if runs => Counter { waiting: before.waiting, ..lost },
            (Posting::NeverLost, Fate::Lost) => {
                Counter { flags: right.flags & !UIL | before.flags & UIL, ..right }
            }
            _ => right,
        }
    }
}
