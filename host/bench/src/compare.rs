//! Random evaluations, samples and roots through both sides, up to the first difference.

use crate::describe;
use crate::formats::{self, EVALUATION_BYTES, POSITION_BYTES, SAMPLE_BYTES};
use crate::numbers::{self, SIDES, Sides};
use crate::probe::{self, Fields};
use cases::chosen;
use cases::evaluations::EvaluationCase;
use cases::piece_tally::PieceTally;
use cases::radicands::{self, radicand};
use cases::random::Random;
use cases::samples::SampleCase;
use cases::weibull_tally::WeibullTally;
use cases::words::float;
use reference::answer::Answer;
use reference::evaluation::INVERT_CUMULATIVE_HAZARD;
use std::fmt::{Display, Formatter, Result as Written};

/// What stands in a buffer before a call, so that a byte left out is seen.
const FILLED: u8 = 0xA5;

/// What the random cases show of kind 4 and of pieces.
#[derive(Default)]
pub struct Shown {
    weibull: WeibullTally,
    pieces: PieceTally,
}

impl Shown {
    fn add(&mut self, evaluated: &EvaluationCase, sampled: &SampleCase) {
        let (value, sample) = (evaluated.expected(), sampled.expected().0);
        self.weibull.add_evaluation(evaluated, &value);
        self.weibull.add_sample(sampled, &sample);
        self.pieces.add_evaluation(evaluated, &value);
        self.pieces.add_sample(&sample);
    }

    /// A sort that no case shows, in words.
    fn missing(&self) -> Option<String> {
        match (self.weibull.least(), self.pieces.least()) {
            ((0, sort), _) => Some(format!("of kind 4 {sort}")),
            (_, (0, sort)) => Some(format!("among {sort}")),
            _ => None,
        }
    }
}

impl Display for Shown {
    fn fmt(&self, f: &mut Formatter<'_>) -> Written {
        write!(f, "{}; {}", self.weibull, self.pieces)
    }
}

/// The chosen cases, then as many random evaluations, samples and roots in turn as asked for; what these show.
pub fn run(seed: u64, count: u64) -> Result<Shown, String> {
    let mut place = 0;
    let mut said = |outcome: Result<(), String>| {
        place += 1;
        outcome.map_err(|sides| format!("seed {seed}, case {place}: the sides part\n{sides}"))
    };
    for case in chosen::evaluations() {
        said(evaluation(&case))?;
    }
    for case in chosen::samples() {
        said(sample(&case, &[]).map(drop))?;
    }
    for x in radicands::chosen() {
        said(root(x))?;
    }
    said(root(f64::INFINITY))?;
    let mut random = Random::new(seed);
    let mut shown = Shown::default();
    for _ in 0..count {
        let evaluated = EvaluationCase::random(&mut random);
        said(evaluation(&evaluated))?;
        let sampled = SampleCase::random(&mut random);
        let left_over = &random.word().to_le_bytes()[..random.index(8)];
        said(sample(&sampled, left_over).map(drop))?;
        shown.add(&evaluated, &sampled);
        said(root(radicand(&mut random)))?;
    }
    match shown.missing() {
        Some(sort) => Err(format!(
            "seed {seed}: of {count} random cases there is none {sort}"
        )),
        None => Ok(shown),
    }
}

/// The engine's nearest root beside the processor's.
fn root(x: f64) -> Result<(), String> {
    let (processor, rattle) = (x.sqrt(), probe::nearest_root(x));
    if processor.to_bits() == rattle.to_bits() {
        return Ok(());
    }
    let (x, processor, rattle) = (float(x), float(processor), float(rattle));
    Err(format!(
        "probe_nearest_root differs\nof {x}\nprocessor {processor}\nRattle    {rattle}"
    ))
}

fn evaluation(case: &EvaluationCase) -> Result<(), String> {
    let answer = case.expected();
    let expected = formats::evaluation(&answer);
    let mut hazard = Vec::new();
    case.hazard.encode(&mut hazard);
    let point = formats::point(case.t, case.w);
    let mut out = [FILLED; EVALUATION_BYTES];
    let done = probe::evaluate(case.operation, &hazard, &point, &mut out);
    if done == 1 && out == expected {
        return if answer.number == 0 {
            on_numbers(case).and_then(|()| piece(case, answer.piece))
        } else {
            Ok(())
        };
    }
    let sides = [expected, out].map(|bytes| describe::evaluation(&bytes));
    let case = describe::evaluation_case(case);
    Err(difference("probe_evaluate", &case, done, sides))
}

/// An accepted case through the evaluations on numbers.
fn on_numbers(case: &EvaluationCase) -> Result<(), String> {
    let sides = Sides::new(case.operation, &case.hazard);
    let [rust, others @ ..] = SIDES.map(|side| {
        let mut out = [0.0];
        side(&sides, &[(case.t, case.w)], &mut out);
        out[0]
    });
    match others.iter().find(|value| !numbers::same(rust, **value)) {
        None => Ok(()),
        Some(other) => {
            let case = describe::evaluation_case(case);
            let values = [rust, *other].map(|value| value.to_string());
            Err(difference("an evaluation on numbers", &case, 1, values))
        }
    }
}

/// The piece of an inversion on numbers, beside the model's.
fn piece(case: &EvaluationCase, model: u64) -> Result<(), String> {
    if case.operation != INVERT_CUMULATIVE_HAZARD {
        return Ok(());
    }
    let fields = Fields::of(&case.hazard);
    let piece = probe::invert_cumulative_hazard(&fields, case.t, case.w).piece;
    if piece == model {
        return Ok(());
    }
    let case = describe::evaluation_case(case);
    let pieces = [model, piece].map(|piece| format!("piece {piece}"));
    Err(difference("an inversion on numbers", &case, 1, pieces))
}

/// What both sides answer, with the position after it. `left_over`: under 8 bytes after the last whole threshold.
pub fn sample(case: &SampleCase, left_over: &[u8]) -> Result<(Answer, u64), String> {
    let (answer, after) = case.expected();
    let expected = formats::sample(&answer, after);
    let mut request = Vec::new();
    case.request.encode_head(&mut request);
    case.request.encode_records(&mut request);
    let stream = [&case.threshold_bytes(), left_over].concat();
    let positions: [u8; POSITION_BYTES] = case.position.to_le_bytes();
    let mut out = [FILLED; SAMPLE_BYTES];
    let done = probe::sample(&request, &stream, &positions, &mut out);
    if done == 1 && out == expected {
        return Ok((answer, after));
    }
    let sides = [expected, out].map(|bytes| describe::sample(&bytes));
    Err(difference(
        "probe_sample",
        &describe::sample_case(case),
        done,
        sides,
    ))
}

/// The case, and what each side gave.
fn difference(name: &str, case: &str, done: u64, [rust, rattle]: [String; 2]) -> String {
    format!("{name} differs, {done} done (1 expected)\n{case}\nRust    {rust}\nRattle  {rattle}")
}
