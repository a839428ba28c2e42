//! Two sides timed in turn.

use std::time::Instant;

use hsc_tests::subject::{Model, Subject, UNDER_TEST};

pub const ROUNDS: usize = 15;

/// The library and the model.
pub const SIDES: [&dyn Subject; 2] = [&UNDER_TEST, &Model];

fn median(mut numbers: Vec<f64>) -> f64 {
    numbers.sort_by(f64::total_cmp);
    numbers[numbers.len() / 2]
}

/// The work's seconds and its result.
pub fn timed<R>(work: impl FnOnce() -> R) -> (f64, R) {
    let begun = Instant::now();
    let result = work();
    (begun.elapsed().as_secs_f64(), result)
}

/// Times the work on the library and on the model.
pub fn compare<R: PartialEq>(name: &str, mut work: impl FnMut(&dyn Subject) -> R) {
    in_turn(name, |side| timed(|| work(SIDES[side])));
}

/// Runs side 0, the library, and side 1, taking turns at going first, after one run of each that
/// is not counted. A run gives the seconds of its timed part and a result; the results must be
/// equal. Gives side 0's least seconds.
pub fn in_turn<R: PartialEq>(name: &str, mut run: impl FnMut(usize) -> (f64, R)) -> f64 {
    assert!(run(0).1 == run(1).1, "{name}: the results differ");
    let mut times = [Vec::new(), Vec::new()];
    for round in 0..ROUNDS {
        for side in [round % 2, 1 - round % 2] {
            times[side].push(run(side).0);
        }
    }
    let ratios = times[0].iter().zip(&times[1]).map(|(library, other)| library / other).collect();
    let [library, other] = times.map(|side| {
        let least = side.iter().copied().fold(f64::INFINITY, f64::min);
        (1e3 * median(side), least)
    });
    println!(
        "  {name:<30} {:9.3} ms {:9.3} ms {:7.2} {:7.2}",
        library.0,
        other.0,
        median(ratios),
        library.1 / other.1
    );
    library.1
}

/// The line through points that is nearest to them, by least squares: where it begins, and its slope.
pub fn line(points: &[(f64, f64)]) -> (f64, f64) {
    let mean =
        |number: &dyn Fn(&(f64, f64)) -> f64| points.iter().map(number).sum::<f64>() / points.len() as f64;
    let (x, y) = (mean(&|point| point.0), mean(&|point| point.1));
    let slope = mean(&|point| (point.0 - x) * (point.1 - y)) / mean(&|point| (point.0 - x).powi(2));
    (y - slope * x, slope)
}
