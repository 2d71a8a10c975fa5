//! A case and an answer in words, for the report of a difference.

use crate::formats;
use cases::evaluations::EvaluationCase;
use cases::samples::SampleCase;
use cases::words::{float, hazard, hex};
use reference::answer::ANSWER_BYTES;
use reference::evaluation::OPERATIONS;
use reference::fields::Reader;
use reference::request::Record;

pub fn evaluation_case(case: &EvaluationCase) -> String {
    format!(
        "{} at {} with w {}\n{}",
        OPERATIONS[usize::from(case.operation)],
        float(case.t),
        float(case.w),
        hazard(&case.hazard)
    )
}

pub fn sample_case(case: &SampleCase) -> String {
    let request = &case.request;
    let thresholds: Vec<String> = case.thresholds.iter().copied().map(float).collect();
    let records: Vec<String> = request.used().iter().map(record).collect();
    format!(
        "n {}, tie {}, age {}, has-censor {}, censor {}, position {}\nthresholds {}\n{}",
        request.n,
        request.tie,
        float(request.age),
        request.has_censor,
        float(request.censor),
        case.position,
        thresholds.join(", "),
        records.join("\n")
    )
}

fn record(record: &Record) -> String {
    let (cause, priority) = (record.cause, record.priority);
    format!(
        "cause {cause}, priority {priority}, {}",
        hazard(&record.hazard)
    )
}

pub fn evaluation(bytes: &[u8]) -> String {
    let mut reader = Reader(bytes);
    let (number, found) = (reader.u8(), reader.u8());
    let mut rest = Reader(&bytes[8..]);
    let (value, piece) = (float(rest.f64()), rest.u64());
    let hex = hex(bytes);
    format!("number {number}, found {found}, value {value}, piece {piece} [{hex}]")
}

pub fn sample(bytes: &[u8]) -> String {
    let mut reader = Reader(bytes);
    let [number, event, censored, _] = [(); 4].map(|()| reader.u8());
    let (cause, delta) = (reader.u32(), float(reader.f64()));
    let piece = bytes[formats::PIECE];
    let after = formats::read_position(&bytes[ANSWER_BYTES..]);
    let hex = hex(bytes);
    format!(
        "number {number}, event {event}, censored {censored}, cause {cause}, delta {delta}, \
         piece {piece}, position after {after} [{hex}]"
    )
}
