//! The fixed lists: chosen cases first, then random ones from a fixed seed.

use crate::clock_steps::ClockStep;
use crate::evaluations::EvaluationCase;
use crate::random::Random;
use crate::rate_pairs::RatePair;
use crate::samples::SampleCase;
use crate::sessions::Session;
use crate::{chosen, chosen_histories, chosen_sessions, refused_sessions};
use crate::{clock_histories, random_sessions, rate_pairs};

pub const EVALUATION_SEED: u64 = 0x4F6C_6761_656D_7572;
pub const EVALUATION_COUNT: usize = 3000;
pub const SAMPLE_SEED: u64 = 0x7375_7276_6976_616C;
pub const SAMPLE_COUNT: usize = 720;
pub const RATE_SEED: u64 = 0x7261_7465_666F_7277;
pub const RATE_COUNT: usize = 1000;
pub const CLOCK_SEED: u64 = 0x636C_6F63_6B73_7465;
/// At least this many steps; the last history is whole.
pub const CLOCK_STEP_COUNT: usize = 2400;
pub const SESSION_SEED: u64 = 0x7365_7373_696F_6E73;
pub const SESSION_COUNT: usize = 300;

pub fn evaluations() -> Vec<EvaluationCase> {
    let mut random = Random::new(EVALUATION_SEED);
    let mut cases = chosen::evaluations();
    cases.resize_with(EVALUATION_COUNT, || EvaluationCase::random(&mut random));
    cases
}

pub fn samples() -> Vec<SampleCase> {
    let mut random = Random::new(SAMPLE_SEED);
    let mut cases = chosen::samples();
    cases.resize_with(SAMPLE_COUNT, || SampleCase::random(&mut random));
    cases
}

pub fn rates() -> Vec<RatePair> {
    let mut random = Random::new(RATE_SEED);
    let mut pairs = rate_pairs::chosen();
    pairs.resize_with(RATE_COUNT, || RatePair::random(&mut random));
    pairs
}

pub fn evaluation_bytes(cases: &[EvaluationCase]) -> Vec<u8> {
    let mut out = Vec::new();
    cases.iter().for_each(|case| case.encode(&mut out));
    out
}

pub fn sample_bytes(cases: &[SampleCase]) -> Vec<u8> {
    let mut out = Vec::new();
    cases.iter().for_each(|case| case.encode(&mut out));
    out
}

pub fn rate_bytes(pairs: &[RatePair]) -> Vec<u8> {
    let mut out = Vec::new();
    pairs.iter().for_each(|pair| pair.encode(&mut out));
    out
}

/// The stream of thresholds that all clock steps share.
pub fn clock_stream() -> Vec<u8> {
    let thresholds = clock_histories::stream(&mut Random::new(!CLOCK_SEED));
    thresholds.iter().flat_map(|w| w.to_le_bytes()).collect()
}

pub fn clock_steps() -> Vec<ClockStep> {
    let thresholds = clock_stream();
    let mut random = Random::new(CLOCK_SEED);
    let chosen = chosen_histories::histories(&thresholds);
    let mut steps: Vec<ClockStep> = chosen.into_iter().flat_map(|h| h.steps).collect();
    while steps.len() < CLOCK_STEP_COUNT {
        steps.extend(clock_histories::history(&mut random, &thresholds).steps);
    }
    steps
}

pub fn clock_step_bytes(steps: &[ClockStep]) -> Vec<u8> {
    let mut out = Vec::new();
    steps.iter().for_each(|step| step.encode(&mut out));
    out
}

pub fn sessions() -> Vec<Session> {
    let mut random = Random::new(SESSION_SEED);
    let mut sessions = chosen_sessions::sessions();
    sessions.extend(refused_sessions::sessions());
    sessions.resize_with(SESSION_COUNT, || random_sessions::session(&mut random));
    sessions
}

pub fn session_bytes(sessions: &[Session]) -> Vec<u8> {
    let mut out = Vec::new();
    sessions.iter().for_each(|session| session.encode(&mut out));
    out
}
