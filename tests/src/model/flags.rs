//! The flag word's bits, by document 01's names.

pub const UIE: u32 = 1 << 0;
pub const UIL: u32 = 1 << 1;
pub const FE: u32 = 1 << 2;
pub const AS: u32 = 1 << 3;
pub const ED: u32 = 1 << 4;
pub const CE: u32 = 1 << 5;
pub const SP: u32 = 1 << 6;
pub const LPM: u32 = 1 << 7;
pub const HPM: u32 = 1 << 8;
pub const UFM: u32 = 1 << 9;
pub const OFM: u32 = 1 << 10;
pub const LPI: u32 = 1 << 11;
pub const HPI: u32 = 1 << 12;
pub const UFI: u32 = 1 << 13;
pub const OFI: u32 = 1 << 14;
pub const DIR: u32 = 1 << 15;
pub const UF: u32 = 1 << 16;
pub const OF: u32 = 1 << 17;
pub const MD: u32 = 1 << 18;
pub const LOADED: u32 = 1 << 19;

pub const MASKS: u32 = LPM | HPM | UFM | OFM;
pub const INTERRUPTS: u32 = LPI | HPI | UFI | OFI;
/// Every bit that has a name.
pub const NAMED: u32 = (1 << 20) - 1;
