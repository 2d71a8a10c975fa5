//! A sampler request: tie, age, censor and eight records (document 01, "Run call and sampler").

use crate::choices::{TIES, has_field_valid};
use crate::fields::{Reader, is_zero_bits, time_in_range};
use crate::hazard::{HAZARD_BYTES, Hazard};
use crate::piece::piece;
use crate::refusal::{Refusal, first_failure};
use kairo_ecs_rng::{
    CauseId, CompetingCause, CompetingHazards, DeterministicStream, RealizedEvent, TieBreaker,
};
use std::cmp::Reverse;

pub const RECORDS: usize = 8;
pub const RECORD_BYTES: usize = 8 + HAZARD_BYTES;
/// n, tie, age, has-censor, censor: what stands before the records.
pub const HEAD_BYTES: usize = 19;
pub const REQUEST_BYTES: usize = HEAD_BYTES + RECORDS * RECORD_BYTES;

/// The cause of a censored event.
pub const CENSORED_CAUSE: u32 = u32::MAX;

#[derive(Clone, Copy, Debug, Default, PartialEq)]
pub struct Record {
    pub cause: u32,
    pub priority: u32,
    pub hazard: Hazard,
}

/// The fields as given, tested or not. The first n records are used, all eight for n above 8.
#[derive(Clone, Copy, Debug, Default, PartialEq)]
pub struct Request {
    pub n: u8,
    pub tie: u8,
    pub age: f64,
    pub has_censor: u8,
    pub censor: f64,
    pub records: [Record; RECORDS],
}

impl Record {
    pub fn decode(bytes: &[u8]) -> Self {
        let mut reader = Reader(bytes);
        Self {
            cause: reader.u32(),
            priority: reader.u32(),
            hazard: Hazard::decode(reader.0),
        }
    }

    pub fn encode(&self, out: &mut Vec<u8>) {
        out.extend(self.cause.to_le_bytes());
        out.extend(self.priority.to_le_bytes());
        self.hazard.encode(out);
    }
}

impl Request {
    /// Reads the head and the used records; the rest are left zero.
    pub fn decode(bytes: &[u8]) -> Self {
        let mut reader = Reader(&bytes[..HEAD_BYTES]);
        let mut request = Self {
            n: reader.u8(),
            tie: reader.u8(),
            age: reader.f64(),
            has_censor: reader.u8(),
            censor: reader.f64(),
            ..Self::default()
        };
        let used = request.used_count();
        let records = bytes[HEAD_BYTES..].chunks_exact(RECORD_BYTES);
        for (record, bytes) in request.records[..used].iter_mut().zip(records) {
            *record = Record::decode(bytes);
        }
        request
    }

    pub fn encode_head(&self, out: &mut Vec<u8>) {
        out.push(self.n);
        out.push(self.tie);
        out.extend(self.age.to_le_bytes());
        out.push(self.has_censor);
        out.extend(self.censor.to_le_bytes());
    }

    pub fn encode_records(&self, out: &mut Vec<u8>) {
        for record in &self.records {
            record.encode(out);
        }
    }

    pub fn used_count(&self) -> usize {
        usize::from(self.n).min(RECORDS)
    }

    pub fn used(&self) -> &[Record] {
        &self.records[..self.used_count()]
    }

    /// The censor age, if there is one.
    pub fn censor_age(&self) -> Option<f64> {
        (self.has_censor == 1).then_some(self.censor)
    }

    /// The Rust's own value for a request that passes 4 and 6 and whose draws from the stream can
    /// be made.
    pub fn build(&self, stream: &DeterministicStream) -> CompetingHazards {
        let causes = (0..self.used_count()).map(|place| self.cause(place, stream));
        CompetingHazards::new(causes.collect(), TIES[usize::from(self.tie)])
    }

    /// A used record. Kind 4 is given as pieces that have its wait for the threshold that it draws.
    fn cause(&self, place: usize, stream: &DeterministicStream) -> CompetingCause {
        let record = &self.records[place];
        CompetingCause {
            cause_id: CauseId(record.cause),
            priority: record.priority,
            hazard: match record.hazard.weibull() {
                Some(weibull) => weibull.as_pieces(self.age, self.drawn(place, stream)),
                None => record.hazard.build_unchanged(),
            },
        }
    }

    /// The threshold that a used record draws: by ascending cause, repeated causes in list order.
    fn drawn(&self, place: usize, stream: &DeterministicStream) -> f64 {
        let order = |other: usize| (self.records[other].cause, other);
        let before = (0..self.used_count()).filter(|other| order(*other) < order(place));
        let threshold = stream.threshold(stream.position() + before.count() as u64);
        threshold.expect("a draw that can be made")
    }

    /// The piece of an uncensored event of these records (document 02, change 6), inverted from the age for the threshold that its
    /// record drew.
    pub fn piece(&self, event: &RealizedEvent, stream: &DeterministicStream) -> usize {
        let place = self.winner(event, stream);
        piece(
            &self.records[place].hazard,
            self.age,
            self.drawn(place, stream),
        )
    }

    /// Of the used records with the event's cause and wait the first, by priority the first with the highest one.
    fn winner(&self, event: &RealizedEvent, stream: &DeterministicStream) -> usize {
        let wins = |place: &usize| {
            let record = &self.records[*place];
            let w = self.drawn(*place, stream);
            let wait = record.hazard.build().invert_cumulative_hazard(self.age, w);
            record.cause == event.winning_cause.0 && wait == Some(event.delta_time)
        };
        let priority = |place: &usize| match TIES[usize::from(self.tie)] {
            TieBreaker::ExplicitPriority => self.records[*place].priority,
            _ => 0,
        };
        let places = (0..self.used_count()).filter(wins);
        let winner = places.min_by_key(|place| Reverse(priority(place)));
        winner.expect("a record that waits so long")
    }

    /// By 4 to 7, each number over all fields before the next, then 10.
    pub fn field_refusal(&self) -> Option<Refusal> {
        let every = |test: fn(&Record) -> bool| self.used().iter().all(test);
        first_failure(&[
            (
                self.choices_valid() && every(|r| r.hazard.choice_valid()),
                Refusal::InvalidChoice,
            ),
            (
                self.times_in_range() && every(|r| r.hazard.rates_in_range()),
                Refusal::OutOfRange,
            ),
            (every(|r| r.hazard.pairs_valid()), Refusal::InvalidPairs),
            (every(|r| r.cause != CENSORED_CAUSE), Refusal::InvalidName),
            (usize::from(self.n) <= RECORDS, Refusal::TooManyCauses),
        ])
    }

    /// Tie and has-censor on their lists, and an unused censor zero.
    fn choices_valid(&self) -> bool {
        let tie_valid = usize::from(self.tie) < TIES.len();
        tie_valid && has_field_valid(self.has_censor, is_zero_bits(self.censor))
    }

    /// An unused censor is zero by then, and zero is in range.
    fn times_in_range(&self) -> bool {
        time_in_range(self.age) && time_in_range(self.censor)
    }
}
