//! For claims about a subject alone, without the model's answers.

use super::case::{Answer, Case};
use crate::generate::Rng;
use crate::subject::{on_each, Subject};

/// Runs a test on each subject with the generators of a fixed seed's cases.
pub fn generated(test: impl Fn(&dyn Subject, &mut Rng)) {
    on_each(|subject| (0..20_000).for_each(|number| test(subject, &mut Rng::of_case(2, number))));
}

/// The answer to a call that touches no more than it is lent.
pub fn answer(subject: &dyn Subject, case: Case) -> Answer {
    let answer = case.answer(subject);
    assert!(answer.stays_within(&case), "{:?} touches a guard or its input", case.call);
    answer
}
