//! A state in 68 bytes and back ("Snapshot, 68 bytes").

use super::counter::Counter;
use super::settings::Settings;
use super::Refusal;

pub const SIZE: usize = 68;

pub type Bytes = [u8; SIZE];

fn get<const N: usize>(bytes: &[u8], at: usize) -> [u8; N] {
    bytes[at..at + N].try_into().unwrap()
}

fn put<const N: usize>(bytes: &mut [u8], at: usize, number: [u8; N]) {
    bytes[at..at + N].copy_from_slice(&number);
}

pub fn encode(counter: &Counter) -> Bytes {
    let mut bytes = [0; SIZE];
    encode_settings(&counter.staged, &mut bytes[..26]);
    encode_settings(&counter.active, &mut bytes[26..52]);
    put(&mut bytes, 52, counter.acc.to_le_bytes());
    put(&mut bytes, 56, counter.outputs.to_le_bytes());
    put(&mut bytes, 58, counter.er.to_le_bytes());
    put(&mut bytes, 60, counter.flags.to_le_bytes());
    put(&mut bytes, 64, [counter.levels, counter.running]);
    put(&mut bytes, 66, counter.waiting);
    bytes
}

fn encode_settings(settings: &Settings, bytes: &mut [u8]) {
    put(bytes, 0, settings.pfn.to_le_bytes());
    put(bytes, 2, settings.mode.to_le_bytes());
    put(bytes, 4, settings.hip.to_le_bytes());
    put(bytes, 8, settings.lop.to_le_bytes());
    put(bytes, 12, settings.ovf.to_le_bytes());
    put(bytes, 16, settings.unf.to_le_bytes());
    put(bytes, 20, settings.omb.to_le_bytes());
    put(bytes, 22, settings.hpo.to_le_bytes());
    put(bytes, 24, settings.lpo.to_le_bytes());
}

/// The numbers of any 68 bytes, well formed or not.
pub fn decode(bytes: &Bytes) -> Counter {
    Counter {
        staged: decode_settings(&bytes[..26]),
        active: decode_settings(&bytes[26..52]),
        acc: i32::from_le_bytes(get(bytes, 52)),
        outputs: u16::from_le_bytes(get(bytes, 56)),
        er: u16::from_le_bytes(get(bytes, 58)),
        flags: u32::from_le_bytes(get(bytes, 60)),
        levels: bytes[64],
        running: bytes[65],
        waiting: get(bytes, 66),
    }
}

fn decode_settings(bytes: &[u8]) -> Settings {
    Settings {
        pfn: i16::from_le_bytes(get(bytes, 0)),
        mode: i16::from_le_bytes(get(bytes, 2)),
        hip: i32::from_le_bytes(get(bytes, 4)),
        lop: i32::from_le_bytes(get(bytes, 8)),
        ovf: i32::from_le_bytes(get(bytes, 12)),
        unf: i32::from_le_bytes(get(bytes, 16)),
        omb: u16::from_le_bytes(get(bytes, 20)),
        hpo: u16::from_le_bytes(get(bytes, 22)),
        lpo: u16::from_le_bytes(get(bytes, 24)),
    }
}

/// The state of a snapshot that must be read: refusal 6 at its index if not well formed.
pub fn decode_at(bytes: &Bytes, index: usize) -> Result<Counter, Refusal> {
    let counter = decode(bytes);
    if counter.is_well_formed() {
        Ok(counter)
    } else {
        Err(Refusal::new(6, index))
    }
}
