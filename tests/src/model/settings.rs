//! A counter's nine settings and the rules of a load ("Loading settings"; rule 6 is document 02's,
//! request 6).

use super::counter::OUTPUTS;

#[derive(Clone, Copy, Default, PartialEq, Eq, Debug)]
pub struct Settings {
    pub pfn: i16,
    pub mode: i16,
    pub hip: i32,
    pub lop: i32,
    pub ovf: i32,
    pub unf: i32,
    pub omb: u16,
    pub hpo: u16,
    pub lpo: u16,
}

impl Settings {
    /// The staged settings of a fresh counter.
    pub fn fresh() -> Settings {
        Settings { hip: i32::MAX, lop: i32::MIN, ovf: i32::MAX, unf: i32::MIN, ..Settings::default() }
    }

    /// Modes 2 to 7 count both ways; modes 0 and 1 only up.
    pub fn both_ways(&self) -> bool {
        self.mode >= 2
    }

    /// The number of the first rule broken, 0 if all hold.
    pub fn broken_rule(&self) -> u16 {
        let hip_above = if self.both_ways() { self.lop } else { 0 };
        if !(3..=255).contains(&self.pfn) {
            1
        } else if !(0..=7).contains(&self.mode) {
            2
        } else if self.hip <= hip_above {
            3
        } else if self.hip > self.ovf {
            4
        } else if self.both_ways() && self.lop < self.unf {
            5
        } else if self.omb & !OUTPUTS != 0 {
            6
        } else {
            0
        }
    }

    /// The nine numbers in the layout's order.
    pub fn fields(&self) -> [i32; 9] {
        [
            self.pfn.into(),
            self.mode.into(),
            self.hip,
            self.lop,
            self.ovf,
            self.unf,
            self.omb.into(),
            self.hpo.into(),
            self.lpo.into(),
        ]
    }
}
