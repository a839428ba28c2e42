//! Generated cases on the model and on the subject. HSC_CASES and HSC_SEED change their count
//! and seed; HSC_LONG=1 takes a new seed and twenty times the cases.

use std::env;
use std::hash::{BuildHasher, RandomState};
use std::time::Instant;

use hsc_tests::harness;
use hsc_tests::subject::{UNDER_TEST, UNDER_TEST_NAME};

const CASES: u64 = 6_000_000;
const SEED: u64 = 0x5eed_0001;

/// The number in an environment variable, decimal or hex with 0x.
fn number(name: &str) -> Option<u64> {
    let text = env::var(name).ok()?;
    let parsed = match text.strip_prefix("0x") {
        Some(digits) => u64::from_str_radix(digits, 16),
        None => text.parse(),
    };
    Some(parsed.unwrap_or_else(|_| panic!("{name} is not a number: {text}")))
}

fn main() {
    let long = number("HSC_LONG").is_some_and(|on| on != 0);
    let (cases, seed) = if long { (20 * CASES, RandomState::new().hash_one(CASES)) } else { (CASES, SEED) };
    let cases = number("HSC_CASES").unwrap_or(cases);
    let seed = number("HSC_SEED").unwrap_or(seed);
    println!("{cases} cases, seed {seed:#x}, on {UNDER_TEST_NAME}");
    let begun = Instant::now();
    let tally = harness::run(&UNDER_TEST, seed, 0..cases).unwrap_or_else(|failure| panic!("{failure}"));
    println!("{tally}{cases} cases agree in {:.1} s", begun.elapsed().as_secs_f64());
    let missing = tally.missing();
    assert!(missing.is_empty(), "never reached: {missing:?}");
}
