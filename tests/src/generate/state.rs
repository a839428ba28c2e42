//! Settings, states and snapshots.

use super::{change_byte, change_length, mask, value, Rng};
use crate::model::counter::{Counter, OUTPUTS};
use crate::model::flags;
use crate::model::settings::Settings;
use crate::model::snapshot;

/// Settings near the load rules, which may break one.
fn loose_settings(rng: &mut Rng) -> Settings {
    let mut limits = [(); 4].map(|()| value(rng));
    if !rng.once_in(4) {
        limits.sort();
    }
    let [unf, lop, hip, ovf] = limits;
    Settings {
        pfn: rng.below(260) as i16,
        mode: rng.below(10) as i16 - 1,
        hip,
        lop,
        ovf,
        unf,
        omb: mask(rng),
        hpo: rng.bits() as u16,
        lpo: rng.bits() as u16,
    }
}

/// Settings that break no load rule.
pub fn settings(rng: &mut Rng) -> Settings {
    loop {
        let settings = loose_settings(rng);
        if settings.broken_rule() == 0 {
            return settings;
        }
    }
}

/// An accumulator at a limit of the active settings or beside it, or anywhere.
fn accumulator(rng: &mut Rng, active: &Settings) -> i32 {
    let limits = [active.hip, active.lop, active.ovf, active.unf];
    match rng.below(4) {
        0 => value(rng),
        _ => rng.pick(&limits).wrapping_add(rng.below(5) as i32 - 2),
    }
}

/// A running cause and two that wait, or none from one of them on; the running one may wait too.
fn causes(rng: &mut Rng) -> [u8; 3] {
    let [mut running, first, mut second] = [(); 3].map(|()| 1 + rng.below(4) as u8);
    if second == first {
        second = first % 4 + 1;
    }
    if rng.once_in(4) {
        running = first;
    }
    let mut causes = [running, first, second];
    causes[rng.below(4)..].fill(0);
    causes
}

/// A well-formed state.
pub fn state(rng: &mut Rng) -> Counter {
    let loaded = !rng.once_in(8);
    let active = if loaded { settings(rng) } else { Settings::default() };
    let staged = match rng.below(4) {
        0 => active,
        1 => settings(rng),
        _ => loose_settings(rng),
    };
    let er = if rng.once_in(4) { 1 + rng.below(6) as u16 } else { 0 };
    let mut bits = rng.bits() as u32 & flags::NAMED & !flags::ED & !flags::LOADED;
    if !rng.once_in(4) {
        bits |= flags::CE | flags::FE | flags::UIE | flags::MASKS;
    }
    if er != 0 {
        bits |= flags::ED;
    }
    if loaded {
        bits |= flags::LOADED;
    }
    let [running, first, second] = causes(rng);
    Counter {
        staged,
        active,
        acc: accumulator(rng, &active),
        outputs: rng.bits() as u16 & OUTPUTS,
        er,
        flags: bits,
        levels: rng.below(16) as u8,
        running,
        waiting: [first, second],
    }
}

/// The settings P of the bench table.
pub fn p() -> Settings {
    Settings { pfn: 3, mode: 2, unf: -3, lop: -2, hip: 4, ovf: 5, ..Settings::default() }
}

/// A counter with these settings loaded that counts and interrupts.
pub fn loaded(settings: Settings, acc: i32) -> Counter {
    Counter {
        staged: settings,
        active: settings,
        acc,
        flags: flags::MASKS | flags::FE | flags::UIE | flags::CE | flags::LOADED,
        ..Counter::fresh()
    }
}

/// The bytes that a rule of well-formedness concerns beside the active settings.
const RULED: [usize; 10] = [57, 58, 59, 60, 62, 63, 64, 65, 66, 67];

/// Where a snapshot's active OMB begins.
pub const ACTIVE_OMB: usize = 46;

/// Where a snapshot has its running cause, before the two that wait.
pub const RUNNING: usize = 65;

/// A snapshot, at times damaged in a byte or two, seldom 68 random bytes.
pub fn snapshot(rng: &mut Rng) -> snapshot::Bytes {
    let mut bytes = snapshot::encode(&state(rng));
    match rng.below(16) {
        0 => bytes = noise(rng),
        1 => change_byte(rng, &mut bytes),
        2 => change_byte(rng, &mut bytes[26..52]),
        3 => bytes[rng.pick(&RULED)] = rng.below(20) as u8,
        4 => bytes[rng.pick(&RULED)] ^= 1 << rng.below(8),
        5 => bytes[ACTIVE_OMB + 1] |= 16 << rng.below(4),
        6 => bytes[RUNNING + 2] = bytes[RUNNING + 1],
        _ => {}
    }
    bytes
}

/// A snapshot as a call is lent it: seldom of another length, or of none.
pub fn lent(rng: &mut Rng) -> Vec<u8> {
    let mut bytes = snapshot(rng).to_vec();
    match rng.below(64) {
        0 | 1 => change_length(rng, &mut bytes),
        2 => bytes.clear(),
        _ => {}
    }
    bytes
}

/// 68 random bytes.
pub fn noise(rng: &mut Rng) -> snapshot::Bytes {
    [(); snapshot::SIZE].map(|()| rng.bits() as u8)
}
