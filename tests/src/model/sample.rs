//! What an input sample counts, by mode ("One input sample"; mode 7 by document 02, request 4).

use super::counter::Counter;
use super::flags::{CE, DIR, LOADED, MD, OF, UF};
use super::interrupt::{Fate, HIGH_PRESET, LOW_PRESET, OVERFLOW, UNDERFLOW};

impl Counter {
    /// One input sample; the cause it raised, if any, and what became of it.
    pub fn sample(&mut self, levels: u8) -> Option<(u8, Fate)> {
        let rises = levels & !self.levels;
        let falls = self.levels & !levels;
        self.levels = levels;
        if !self.has(LOADED) {
            return None;
        }
        let mode = self.active.mode;
        let (rise_0, fall_0) = (rises & 1 != 0, falls & 1 != 0);
        let (input_1, input_2) = (levels & 2 != 0, levels & 4 != 0);
        let resets = match mode {
            1 | 3 | 5 => rises & 4 != 0,
            7 => fall_0 && !input_1 && input_2,
            _ => false,
        };
        if resets {
            self.acc = 0;
            return None;
        }
        let holds = mode % 2 == 1 && levels & 8 != 0;
        if !self.has(CE) || holds {
            return None;
        }
        let (up, down) = match mode {
            0 | 1 => (rise_0, false),
            2 | 3 => (rise_0 && !input_1, rise_0 && input_1),
            4 | 5 => (rise_0, rises & 2 != 0),
            6 => (rise_0 && !input_1, fall_0 && !input_1),
            _ => (rise_0 && !input_1 && !input_2, fall_0 && !input_1 && !input_2),
        };
        let cause = match (up, down) {
            (true, false) => self.count_up(),
            (false, true) => self.count_down(),
            _ => None,
        }?;
        match cause {
            LOW_PRESET => self.put_outputs(self.active.lpo, self.active.omb),
            HIGH_PRESET => self.put_outputs(self.active.hpo, self.active.omb),
            _ => {}
        }
        Some((cause, self.raise(cause)))
    }

    fn count_up(&mut self) -> Option<u8> {
        self.set(DIR, true);
        let both_ways = self.active.both_ways();
        if self.acc >= self.active.ovf {
            self.acc = if both_ways { self.active.unf } else { 0 };
            self.set(OF, true);
            return Some(OVERFLOW);
        }
        self.acc += 1;
        if self.acc != self.active.hip {
            return None;
        }
        if !both_ways {
            self.acc = 0;
            self.set(MD, true);
        }
        Some(HIGH_PRESET)
    }

    fn count_down(&mut self) -> Option<u8> {
        self.set(DIR, false);
        if self.acc <= self.active.unf {
            self.acc = self.active.ovf;
            self.set(UF, true);
            return Some(UNDERFLOW);
        }
        self.acc -= 1;
        (self.acc == self.active.lop).then_some(LOW_PRESET)
    }
}
