//! One sample and its expected answer: a case of 1,340 bytes.

use crate::floats::{self, Style, near, positive, style, threshold};
use crate::hazards::{age, amount_between, hazard};
use crate::random::Random;
use crate::sample_damage::damage;
use reference::answer::Answer;
use reference::fields::LIMIT;
use reference::request::{RECORD_BYTES, Record, Request};
use reference::sampler::{sample, threshold_valid};

pub const CASE_BYTES: usize = 1340;
/// Room for thresholds in a case.
pub const THRESHOLDS: usize = 12;

pub const CAUSES: [u32; 10] = [0, 1, 2, 3, 5, 7, 11, 256, 1 << 31, u32::MAX - 1];

#[derive(Clone, Debug)]
pub struct SampleCase {
    pub request: Request,
    pub position: u64,
    /// At most 12.
    pub thresholds: Vec<f64>,
}

impl SampleCase {
    /// Three in four are accepted.
    pub fn random(random: &mut Random) -> Self {
        let mut case = Self::accepted(random);
        if random.chance(25) {
            damage(random, &mut case);
            if random.chance(30) {
                damage(random, &mut case);
            }
        }
        case
    }

    fn accepted(random: &mut Random) -> Self {
        let style = style(random);
        let mut case = Self {
            request: request(random, style),
            position: random.below(5),
            thresholds: Vec::new(),
        };
        case.thresholds = thresholds(random, style, &case);
        if random.chance(55) {
            case.request.censor = censor(random, &case);
            case.request.has_censor = 1;
        }
        case
    }

    pub fn threshold_bytes(&self) -> Vec<u8> {
        let thresholds = self.thresholds.iter();
        thresholds.flat_map(|w| w.to_le_bytes()).collect()
    }

    /// The answer and the position after it.
    pub fn expected(&self) -> (Answer, u64) {
        let mut position = self.position;
        let answer = sample(&self.request, &self.threshold_bytes(), &mut position);
        assert!(
            !answer.delta.is_nan(),
            "a delta that is no number: {self:?}"
        );
        (answer, position)
    }

    pub fn encode(&self, out: &mut Vec<u8>) {
        let (answer, position) = self.expected();
        self.request.encode_head(out);
        out.extend(self.position.to_le_bytes());
        out.push(self.thresholds.len() as u8);
        out.extend(self.threshold_bytes());
        out.resize(out.len() + (THRESHOLDS - self.thresholds.len()) * 8, 0);
        self.request.encode_records(out);
        out.extend(answer.to_bytes());
        out.extend(position.to_le_bytes());
    }
}

/// A request without a censor age.
fn request(random: &mut Random, style: Style) -> Request {
    let n = random.pick(&[0, 1, 1, 2, 2, 3, 3, 4, 4, 5, 5, 6, 6, 7, 7, 8, 8, 8]);
    let mut request = Request {
        n,
        tie: random.below(3) as u8,
        ..Request::default()
    };
    let few = random.chance(40);
    for record in &mut request.records[..usize::from(n)] {
        record.cause = cause(random, few);
        record.priority = random.pick(&[0, 0, 1, 1, 2, 9, u32::MAX]);
        record.hazard = hazard(random, style);
    }
    let any = random.pick(&request.records).hazard;
    request.age = age(random, &any, style);
    if random.chance(50) {
        fill_unused(random, &mut request);
    }
    request
}

/// With few causes to choose from, some are repeated.
fn cause(random: &mut Random, few: bool) -> u32 {
    if few {
        random.below(4) as u32
    } else {
        random.pick(&CAUSES)
    }
}

/// Any bytes at all in the records that are not used.
fn fill_unused(random: &mut Random, request: &mut Request) {
    for record in &mut request.records[usize::from(request.n)..] {
        let bytes: [u8; RECORD_BYTES] = std::array::from_fn(|_| random.word() as u8);
        *record = Record::decode(&bytes);
    }
}

/// Thresholds before the position, one for each draw, and some after; those that are not drawn
/// may be ones that a draw refuses.
fn thresholds(random: &mut Random, style: Style, case: &SampleCase) -> Vec<f64> {
    let mut list: Vec<f64> = (0..case.position).map(|_| undrawn(random, style)).collect();
    if random.chance(70) {
        list.extend(aimed_draws(random, style, &case.request));
    } else {
        list.extend(case.request.used().iter().map(|_| threshold(random, style)));
    }
    let after = random.index(THRESHOLDS + 1 - list.len());
    list.extend((0..after).map(|_| undrawn(random, style)));
    list
}

fn undrawn(random: &mut Random, style: Style) -> f64 {
    if random.chance(20) {
        floats::not_a_threshold(random)
    } else {
        threshold(random, style)
    }
}

/// Thresholds that let several causes wait as long, in the order of the draws: by cause.
fn aimed_draws(random: &mut Random, style: Style, request: &Request) -> Vec<f64> {
    let wait = positive(random, style);
    let end = (request.age + wait).min(LIMIT);
    let mut records = request.used().to_vec();
    records.sort_by_key(|record| record.cause);
    let aimed = |random: &mut Random, record: &Record| {
        let amount = amount_between(&record.hazard, request.age, end);
        if amount > 0.0 && threshold_valid(amount) && random.chance(90) {
            amount
        } else {
            threshold(random, style)
        }
    };
    records.iter().map(|record| aimed(random, record)).collect()
}

/// A censor age before, at or after the age or the event.
fn censor(random: &mut Random, case: &SampleCase) -> f64 {
    let age = case.request.age;
    let event = (age + case.expected().0.delta).min(LIMIT);
    let chosen = match random.below(8) {
        0 => near(random, age),
        1 => age / 2.0,
        2 => LIMIT,
        3 | 4 => age + (event - age) / 2.0,
        5 => event + 1.0,
        _ => near(random, event),
    };
    chosen.abs().min(LIMIT)
}
