//! Stand-in for the crate `rand_distr`: the two distributions that competing_risks.rs names.
//! A draw is the next threshold of a recorded stream, not a random number.

#![forbid(unsafe_code)]

/// Where draws come from.
pub trait ThresholdSource {
    /// The next recorded threshold.
    fn next_threshold(&mut self) -> f64;
}

pub trait Distribution<T> {
    fn sample<S: ThresholdSource>(&self, source: &mut S) -> T;
}

/// The standard exponential distribution: its draws are what is recorded.
pub struct Exp1;

impl Distribution<f64> for Exp1 {
    fn sample<S: ThresholdSource>(&self, source: &mut S) -> f64 {
        source.next_threshold()
    }
}

/// The uniform distribution on the open interval (0, 1), named by a function that is not carried.
pub struct Open01;

impl Distribution<f64> for Open01 {
    fn sample<S: ThresholdSource>(&self, _source: &mut S) -> f64 {
        unreachable!("uniform draws are not recorded")
    }
}
