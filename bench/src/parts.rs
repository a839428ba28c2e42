//! The first difference of two long parts of bytes: beside the model, and beside the C library's
//! memcmp, which says that there is one and not where.

use std::env;
use std::ffi::{c_int, c_void};
use std::hint::black_box;
use std::process::Command;

use hsc_tests::generate::Rng;

use crate::timing::{compare, in_turn, timed, SIDES};

extern "C" {
    fn memcmp(first: *const c_void, second: *const c_void, length: usize) -> c_int;
}

/// The argument that asks for the lines of memcmp alone.
pub const MEMCMP_ALONE: &str = "memcmp";

/// Without AVX2 the C library (glibc 2.36) takes the memcmp that loads sixteen bytes at once.
const SIXTEEN_BYTES: (&str, &str) = ("GLIBC_TUNABLES", "glibc.cpu.hwcaps=-AVX2");

const LENGTHS: [(&str, usize); 3] = [("64 KiB", 1 << 16), ("1 MiB", 1 << 20), ("64 MiB", 1 << 26)];

/// In a round: the bytes of a part that are compared up to the last, and the calls that leave off
/// at the first.
const COMPARED: usize = 1 << 27;
const CALLS: usize = 1_000_000;

/// Two parts of which the bytes at one place differ. Each begins at a multiple of 64.
fn on_parts(length: usize, place: usize, work: impl FnOnce([&[u8]; 2])) {
    let mut memory = [(); 2].map(|()| vec![0; length + 64]);
    let [first, second] = memory.each_mut().map(|memory| {
        let begin = memory.as_ptr().align_offset(64);
        &mut memory[begin..][..length]
    });
    let mut rng = Rng::new(3);
    first.as_chunks_mut().0.iter_mut().for_each(|bytes| *bytes = rng.bits().to_le_bytes());
    second.copy_from_slice(first);
    second[place] ^= 1;
    work([first, second]);
}

/// The sum of the answers to so many calls, none of which the optimizer may take for another.
fn repeat(calls: usize, parts: [&[u8]; 2], call: impl Fn([&[u8]; 2]) -> u64) -> u64 {
    (0..calls).map(|_| call(black_box(parts))).sum()
}

fn library([first, second]: [&[u8]; 2]) -> u64 {
    SIDES[0].first_difference(first, second)
}

fn beside_model(name: &str, calls: usize, parts: [&[u8]; 2]) {
    compare(&format!("{name}, library/model"), |subject| {
        repeat(calls, parts, |[first, second]| subject.first_difference(first, second))
    });
}

/// The shortest parts beside the model, and the library on longer ones beside itself on these.
pub fn first_byte() {
    println!("two parts of bytes, differing at the first byte: {CALLS} calls in a round");
    let [(least, length), longer @ ..] = LENGTHS;
    on_parts(length, 0, |shortest| {
        beside_model(least, CALLS, shortest);
        for (name, length) in longer {
            on_parts(length, 0, |parts| {
                in_turn(&format!("{name}, library/at {least}"), |side| {
                    timed(|| repeat(CALLS, [parts, shortest][side], library))
                });
            });
        }
    });
}

pub fn last_byte() {
    println!("two parts of bytes, equal but for the last byte: {} MiB of each in a round", COMPARED >> 20);
    for (name, length) in LENGTHS {
        on_parts(length, length - 1, |parts| beside_model(name, COMPARED / length, parts));
    }
    beside_memcmp();
}

/// The lines of memcmp, on parts that are equal but for the last byte.
pub fn beside_memcmp() {
    for (name, length) in LENGTHS {
        // SAFETY: both parts have the length passed.
        let other = |[first, second]: [&[u8]; 2]| unsafe {
            let differ = black_box(memcmp(first.as_ptr().cast(), second.as_ptr().cast(), length)) != 0;
            (length - usize::from(differ)) as u64
        };
        on_parts(length, length - 1, |parts| {
            in_turn(&format!("{name}, library/memcmp"), |side| {
                timed(|| match side {
                    0 => repeat(COMPARED / length, parts, library),
                    _ => repeat(COMPARED / length, parts, other),
                })
            });
        });
    }
}

/// Starts the program again for the lines of memcmp, held to registers of sixteen bytes.
pub fn beside_narrow_memcmp() {
    let (name, value) = SIXTEEN_BYTES;
    println!("equal but for the last byte, memcmp held to sixteen-byte registers: {name}={value}");
    let program = env::current_exe().expect("the program has a file");
    let status = Command::new(program).arg(MEMCMP_ALONE).env(name, value).status();
    assert!(status.is_ok_and(|status| status.success()), "the program could not be run again");
}
