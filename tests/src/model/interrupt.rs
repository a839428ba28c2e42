//! Causes and the queue of interrupts (end of "One input sample"; causes that wait already by
//! document 02, request 7).

use super::counter::Counter;
use super::flags;

pub const LOW_PRESET: u8 = 1;
pub const HIGH_PRESET: u8 = 2;
pub const UNDERFLOW: u8 = 3;
pub const OVERFLOW: u8 = 4;

/// What becomes of a cause that is raised.
#[derive(Clone, Copy, PartialEq, Eq, Debug)]
pub enum Fate {
    Started,
    Waited,
    /// It waited already.
    Merged,
    Lost,
    Dropped,
}

impl Counter {
    pub(super) fn raise(&mut self, cause: u8) -> Fate {
        let mask = flags::LPM << (cause - 1);
        if !self.has(flags::FE | flags::UIE | mask) {
            Fate::Dropped
        } else if self.waiting.contains(&cause) {
            Fate::Merged
        } else if self.running == 0 {
            self.start(cause);
            Fate::Started
        } else if let Some(free) = self.waiting.iter_mut().find(|waiting| **waiting == 0) {
            *free = cause;
            Fate::Waited
        } else {
            self.flags |= flags::UIL;
            Fate::Lost
        }
    }

    fn start(&mut self, cause: u8) {
        self.running = cause;
        self.flags = self.flags & !flags::INTERRUPTS | flags::LPI << (cause - 1);
    }

    pub(super) fn routine_done(&mut self) {
        match self.waiting {
            [0, _] => self.running = 0,
            [first, second] => {
                self.start(first);
                self.waiting = [second, 0];
            }
        }
    }

    pub(super) fn clear_interrupts(&mut self) {
        self.flags &= !flags::INTERRUPTS;
        self.running = 0;
        self.waiting = [0, 0];
    }
}
