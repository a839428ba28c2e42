//! A full night: the most events an image may have, nearly all of them pulses.

use hsc_tests::generate::event::{event, load, stamp};
use hsc_tests::generate::{image, Rng};
use hsc_tests::model::event::Bytes;
use hsc_tests::model::settings::Settings;
use hsc_tests::model::trace::MAX_EVENTS;

/// The night's first events load these; its counts reach presets and limits now and then.
const SETTINGS: Settings = Settings {
    pfn: 3,
    mode: 2,
    hip: 400,
    lop: -400,
    ovf: 500,
    unf: -500,
    omb: 0x00ff,
    hpo: 0x0055,
    lpo: 0x00aa,
};

/// One event in this many is no pulse.
const OTHER: usize = 64;

pub fn events() -> Vec<Bytes> {
    let mut rng = Rng::new(1);
    let mut events = load(&mut rng, &SETTINGS);
    let mut levels = 0;
    events.resize_with(MAX_EVENTS as usize, || {
        let mut bytes = match rng.below(4 * OTHER) {
            0 => event(5, 0, rng.below(1000) as i32 - 500),
            1 => event(9, 0, rng.bits() as u16 as i32),
            2 => event(6, 0, 0),
            3 => event(7, 0, 0),
            _ => {
                levels ^= if rng.once_in(OTHER) { 3 } else { 1 };
                event(1, 0, levels)
            }
        };
        stamp(&mut rng, &mut bytes);
        bytes
    });
    events
}

/// The night once more with other stamps, and another sample at each place that differs.
pub fn copy(differs: fn(u32) -> bool) -> Vec<Bytes> {
    let mut rng = Rng::new(2);
    let mut events = events();
    for (place, bytes) in (0..).zip(&mut events) {
        if differs(place) {
            let levels = if bytes[0] == 1 { bytes[4] ^ 4 } else { 0 };
            *bytes = event(1, 0, levels.into());
        }
        stamp(&mut rng, bytes);
    }
    events
}

/// The night's image, its table not yet written.
pub fn image(spacing: usize) -> Vec<u8> {
    image::image(&events(), spacing)
}

/// The same of the night's first events.
pub fn first(count: usize, spacing: usize) -> Vec<u8> {
    image::image(&events()[..count], spacing)
}
