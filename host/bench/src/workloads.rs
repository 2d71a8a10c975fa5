//! What is timed: points and hazards for the evaluations, causes and thresholds for the sampler, numbers for the root, pairs for the rate.

use cases::floats::{LARGEST_SUBNORMAL, SMALLEST, Style, positive, spread};
use cases::radicands::below_short_square;
use cases::random::Random;
use reference::fields::LIMIT;
use reference::hazard::{CONSTANT, GOMPERTZ, Hazard, WEIBULL};
use reference::request::{Record, Request};

const SEED: u64 = 1;
pub const POINTS: usize = 1024;
pub const POSITIONS: usize = 512;

/// Ends and rates of the piecewise hazard.
const PAIRS: [(f64, f64); 8] = [
    (1.0, 0.1),
    (2.0, 0.3),
    (4.0, 0.2),
    (8.0, 0.05),
    (12.0, 0.4),
    (16.0, 0.1),
    (24.0, 0.25),
    (30.0, 0.15),
];

pub struct EvaluationWorkload {
    pub name: &'static str,
    pub hazard: Hazard,
}

pub fn evaluations() -> [EvaluationWorkload; 4] {
    [
        ("constant", Hazard::single_rate(CONSTANT, 0.3)),
        ("gompertz", Hazard::single_rate(GOMPERTZ, 0.3)),
        ("piecewise, 8 pairs", Hazard::piecewise(&PAIRS, 0.2)),
        ("weibull", weibull()),
    ]
    .map(|(name, hazard)| EvaluationWorkload { name, hazard })
}

pub fn weibull() -> Hazard {
    Hazard::single_rate(WEIBULL, 3.0)
}

/// Times and w of moderate size, reaching every piece.
pub fn points() -> Vec<(f64, f64)> {
    let mut random = Random::new(SEED);
    let mut number = || positive(&mut random, Style::Moderate);
    (0..POINTS).map(|_| (number(), number())).collect()
}

/// Numbers of moderate size, to take the root of.
pub fn moderate_numbers() -> Vec<f64> {
    let mut random = Random::new(SEED);
    let number = || positive(&mut random, Style::Moderate);
    std::iter::repeat_with(number).take(POINTS).collect()
}

/// Every exponent as likely.
pub fn numbers_of_all_sizes() -> Vec<f64> {
    numbers_between(SMALLEST, f64::MAX)
}

pub fn subnormal_numbers() -> Vec<f64> {
    numbers_between(SMALLEST, LARGEST_SUBNORMAL)
}

/// Just below the square of a number with few digits, to which the root is rounded up.
pub fn numbers_below_squares() -> Vec<f64> {
    let mut random = Random::new(SEED);
    let number = || below_short_square(&mut random);
    std::iter::repeat_with(number).take(POINTS).collect()
}

fn numbers_between(low: f64, high: f64) -> Vec<f64> {
    let mut random = Random::new(SEED);
    let number = || spread(&mut random, low, high);
    std::iter::repeat_with(number).take(POINTS).collect()
}

/// Thresholds of moderate size, and waits that rates of moderate size give.
pub fn rate_pairs() -> Vec<(f64, f64)> {
    let given = |(threshold, rate): (f64, f64)| (threshold, threshold / rate);
    points().into_iter().map(given).collect()
}

/// Thresholds, with the waits that the largest rate, 2^40, gives: all rates are searched then.
pub fn largest_rate_pairs() -> Vec<(f64, f64)> {
    let mut random = Random::new(SEED);
    let threshold = || 1.0 + (random.below(1 << 30) as f64) / f64::from(1 << 30);
    let thresholds = std::iter::repeat_with(threshold).take(POINTS);
    thresholds
        .map(|threshold| (threshold, threshold / LIMIT))
        .collect()
}

pub struct SampleWorkload {
    pub name: &'static str,
    pub request: Vec<u8>,
}

pub fn samples() -> [SampleWorkload; 3] {
    let constant = |index: u32| Hazard::single_rate(CONSTANT, 0.1 + 0.05 * f64::from(index));
    let pieces = |index: u32| Hazard::piecewise(&PAIRS, 0.1 + 0.05 * f64::from(index));
    [
        ("4 constant", request(4, constant)),
        ("8 constant", request(8, constant)),
        ("8 piecewise, 8 pairs", request(8, pieces)),
    ]
    .map(|(name, request)| SampleWorkload { name, request })
}

/// Causes in descending order, so that both sides have to put them in order.
fn request(n: u8, hazard: impl Fn(u32) -> Hazard) -> Vec<u8> {
    let mut request = Request {
        n,
        age: 0.5,
        has_censor: 1,
        censor: 100.0,
        ..Request::default()
    };
    for (index, record) in (0..u32::from(n)).zip(&mut request.records) {
        *record = Record {
            cause: 100 - index,
            priority: index,
            hazard: hazard(index),
        };
    }
    let mut out = Vec::new();
    request.encode_head(&mut out);
    request.encode_records(&mut out);
    out
}

pub fn thresholds() -> Vec<u8> {
    let mut random = Random::new(SEED);
    (0..POSITIONS + 8)
        .flat_map(|_| positive(&mut random, Style::Moderate).to_le_bytes())
        .collect()
}

pub fn positions() -> Vec<u8> {
    (0..POSITIONS as u64).flat_map(u64::to_le_bytes).collect()
}
