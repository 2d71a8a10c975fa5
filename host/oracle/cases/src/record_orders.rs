//! Samples with all causes different, the same records in another order, and lists worked through (document 02, change 8).

use crate::random::Random;
use crate::samples::SampleCase;
use reference::answer::Answer;
use reference::fields::LIMIT;
use reference::hazard::{CONSTANT, Hazard};
use reference::request::{CENSORED_CAUSE, Record, Request};

/// No two used records have the same cause.
pub fn causes_differ(request: &Request) -> bool {
    let mut causes: Vec<u32> = request.used().iter().map(|record| record.cause).collect();
    causes.sort_unstable();
    causes.windows(2).all(|two| two[0] < two[1])
}

/// A random sample whose causes are all different. Three in four are accepted.
pub fn with_different_causes(random: &mut Random) -> SampleCase {
    let mut case = SampleCase::random(random);
    separate_causes(random, &mut case.request);
    case
}

/// Gives the used records ascending causes in the order in which they draw, so that each draws what it drew before. The cause that is
/// refused stays, at most once.
fn separate_causes(random: &mut Random, request: &mut Request) {
    let used = request.used_count();
    let mut order: Vec<usize> = (0..used).collect();
    order.sort_by_key(|&place| request.records[place].cause);
    let mut cause = random.pick(&[0, 1, 1 << 31, CENSORED_CAUSE - (1 << 16)]);
    for (drawn, &place) in order.iter().enumerate() {
        let refused = request.records[place].cause == CENSORED_CAUSE && drawn + 1 == used;
        if !refused {
            request.records[place].cause = cause;
        }
        cause += random.pick(&[1, 1, 2, 255, 1000]);
    }
}

/// The used records in a random order, which may be their own. The others stay.
pub fn in_another_order(random: &mut Random, case: &SampleCase) -> SampleCase {
    let mut case = case.clone();
    for last in (1..case.request.used_count()).rev() {
        let place = random.index(last + 1);
        case.request.records.swap(place, last);
    }
    case
}

/// A record with a constant rate.
pub fn constant(cause: u32, priority: u32, rate: f64) -> Record {
    Record {
        cause,
        priority,
        hazard: Hazard::single_rate(CONSTANT, rate),
    }
}

pub fn case(records: &[Record], tie: u8, age: f64, thresholds: &[f64]) -> SampleCase {
    let mut request = Request {
        n: records.len() as u8,
        tie,
        age,
        ..Request::default()
    };
    request.records[..records.len()].copy_from_slice(records);
    SampleCase {
        request,
        position: 0,
        thresholds: thresholds.to_vec(),
    }
}

pub fn censored_at(mut case: SampleCase, censor: f64) -> SampleCase {
    case.request.has_censor = 1;
    case.request.censor = censor;
    case
}

/// 1 + k u, where u is the distance from 1 to the next f64.
pub fn one_plus(k: u64) -> f64 {
    f64::from_bits(1.0f64.to_bits() + k)
}

/// The lists of crates/hazards/proofs/WorkedLists.antt and their answers.
pub fn worked() -> Vec<(SampleCase, Answer)> {
    let mut lists = worked_ties();
    lists.extend(worked_censors());
    lists.extend(worked_rounding());
    lists.extend(worked_repeated());
    lists
}

const LOW: (u32, u32) = (1, 0);
const HIGH: (u32, u32) = (2, 0);
const URGENT: (u32, u32) = (2, 7);

/// Causes and priorities with rate 1.0, so that a threshold is a wait.
fn records(causes: &[(u32, u32)]) -> Vec<Record> {
    let constant = |&(cause, priority): &(u32, u32)| constant(cause, priority, 1.0);
    causes.iter().map(constant).collect()
}

fn worked_ties() -> Vec<(SampleCase, Answer)> {
    let two_orders = [([LOW, HIGH], [LOW, URGENT]), ([HIGH, LOW], [URGENT, LOW])];
    let mut lists = Vec::new();
    for (plain, urgent) in two_orders {
        let plain = records(&plain);
        lists.push((case(&plain, 0, 0.0, &[2.0, 1.0]), Answer::event(2, 1.0)));
        lists.push((case(&plain, 0, 0.0, &[1.0, 2.0]), Answer::event(1, 1.0)));
        lists.push((case(&plain, 0, 0.0, &[1.0; 2]), Answer::event(1, 1.0)));
        lists.push((case(&plain, 1, 0.0, &[1.0; 2]), Answer::event(2, 1.0)));
        lists.push((case(&plain, 2, 0.0, &[1.0; 2]), Answer::event(1, 1.0)));
        let urgent = records(&urgent);
        lists.push((case(&urgent, 2, 0.0, &[1.0; 2]), Answer::event(2, 1.0)));
    }
    for three in [[(1, 1), (2, 3), (3, 2)], [(3, 2), (1, 1), (2, 3)]] {
        let three = records(&three);
        lists.push((case(&three, 2, 0.0, &[1.0; 3]), Answer::event(2, 1.0)));
    }
    lists
}

fn worked_censors() -> Vec<(SampleCase, Answer)> {
    let one = |threshold: f64, censor: f64| {
        censored_at(case(&records(&[LOW]), 0, 1.0, &[threshold]), censor)
    };
    let never = [Record {
        cause: 1,
        ..Record::default()
    }];
    let never = case(&never, 0, 1.0, &[1.0]);
    let two = |causes: [(u32, u32); 2], censor: f64| {
        censored_at(case(&records(&causes), 0, 1.0, &[2.0, 1.0]), censor)
    };
    let none = Answer::default();
    let censored = |delta: f64| Answer::event(CENSORED_CAUSE, delta);
    vec![
        (one(1.0, 1.5), censored(0.5)),
        (one(1.0, 2.0), Answer::event(1, 1.0)),
        (one(1.0, 4.0), Answer::event(1, 1.0)),
        (two([LOW, HIGH], 1.5), censored(0.5)),
        (two([HIGH, LOW], 1.5), censored(0.5)),
        (two([LOW, HIGH], 4.0), Answer::event(2, 1.0)),
        (two([HIGH, LOW], 4.0), Answer::event(2, 1.0)),
        (one(1.0, 0.5), censored(0.0)),
        (one(0.0, 0.5), Answer::event(1, 0.0)),
        (one(1.0, 1.0), censored(0.0)),
        (one(0.0, 1.0), Answer::event(1, 0.0)),
        (censored_at(never.clone(), 2.0), censored(1.0)),
        (censored_at(never.clone(), 1.0), none),
        (censored_at(never.clone(), 0.5), none),
        (never, none),
        (censored_at(case(&[], 0, 1.0, &[1.0]), 2.0), none),
    ]
}

fn worked_rounding() -> Vec<(SampleCase, Answer)> {
    let u = one_plus(1) - 1.0;
    let one = |age: f64, wait: f64| case(&records(&[LOW]), 0, age, &[wait]);
    let two = |second, tie, waits: [f64; 2]| case(&records(&[LOW, second]), tie, LIMIT, &waits);
    vec![
        (
            censored_at(one(1.5 * u, one_plus(2)), one_plus(3)),
            Answer::event(1, one_plus(2)),
        ),
        (
            censored_at(one(0.5 * u, 1.0), one_plus(1)),
            Answer::event(1, 1.0),
        ),
        (two(HIGH, 0, [one_plus(1), 1.0]), Answer::event(2, 1.0)),
        (two(HIGH, 1, [1.0, one_plus(1)]), Answer::event(1, 1.0)),
        (two(URGENT, 2, [1.0, one_plus(1)]), Answer::event(1, 1.0)),
    ]
}

/// One cause twice, with rates 1.0 and 2.0: the first of the list draws 1.0, the second 4.0.
fn worked_repeated() -> Vec<(SampleCase, Answer)> {
    let (slow, fast) = (constant(1, 0, 1.0), constant(1, 0, 2.0));
    vec![
        (
            case(&[slow, fast], 0, 0.0, &[1.0, 4.0]),
            Answer::event(1, 1.0),
        ),
        (
            case(&[fast, slow], 0, 0.0, &[1.0, 4.0]),
            Answer::event(1, 0.5),
        ),
    ]
}
