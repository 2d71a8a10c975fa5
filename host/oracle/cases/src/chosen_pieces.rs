//! Chosen evaluations, samples, histories and sessions with pieces (document 02, change 6): both sides of each end, the trailing rate,
//! waits that are infinite or end past the pair used, and what becomes of the winner's piece.

use crate::chosen::{table_hazard, tied, wait};
use crate::chosen_histories::{Chosen, RESTART, RETAIN, censored, constant, create, hazard};
use crate::chosen_histories::{pause, remove, reschedule, resume};
use crate::chosen_sessions::{of, table_clock};
use crate::chosen_weibull::FOUR_THEN_ONE_AND_A_HALF;
use crate::evaluations::EvaluationCase;
use crate::floats::SMALLEST;
use crate::samples::SampleCase;
use crate::sessions::Session;
use reference::command::Command;
use reference::fields::LIMIT;
use reference::hazard::Hazard;

pub fn evaluations() -> Vec<EvaluationCase> {
    let mut cases = table_waits();
    cases.extend(each_pair());
    cases.extend(without_a_wait());
    cases.extend(past_the_end());
    cases
}

/// P of document 01's table: w around what fills a pair, starts around the ends, w at most 0 from a start in a later piece.
fn table_waits() -> Vec<EvaluationCase> {
    let filled = 2.0f64;
    let amounts = [
        SMALLEST,
        filled.next_down(),
        filled,
        filled.next_up(),
        LIMIT,
    ];
    let ends = [2.0f64, 5.0].map(|end| [end.next_down(), end, end.next_up()]);
    let starts = ends.concat().into_iter().chain([3.0, -1.0, LIMIT]);
    let mut all: Vec<(f64, f64)> = amounts.map(|w| (0.0, w)).into();
    for start in starts {
        all.extend([-1.0, -0.0, SMALLEST, 0.5, 3.0].map(|w| (start, w)));
    }
    let p = table_hazard();
    all.into_iter()
        .map(|(start, w)| wait(p, start, w))
        .collect()
}

/// Eight pairs of rate 1.0, then 0.5: w just fills each pair or ends in the next; and with rate 0 in all pairs but the last.
fn each_pair() -> Vec<EvaluationCase> {
    let ends = [1.0, 2.0, 3.0, 4.0, 5.0, 6.0, 7.0, 8.0f64];
    let even = Hazard::piecewise(&ends.map(|end| (end, 1.0)), 0.5);
    let last = Hazard::piecewise(
        &ends.map(|end| (end, if end == 8.0 { 1.0 } else { 0.0 })),
        0.5,
    );
    let mut cases = Vec::new();
    for end in ends {
        for w in [end.next_down(), end, end.next_up()] {
            cases.push(wait(even, 0.0, w));
            cases.push(wait(even, 0.5, w));
            cases.push(wait(last, end, w));
        }
    }
    cases
}

/// No wait by a trailing rate at most 0, an infinite one by the smallest; and what still ends before or has no pairs.
fn without_a_wait() -> Vec<EvaluationCase> {
    let mut cases = Vec::new();
    for trailing in [0.0, -0.0, -1.0, SMALLEST] {
        let curves = [
            Hazard::piecewise(&[(2.0, 1.0), (5.0, 0.0)], trailing),
            Hazard::piecewise(&[(2.0, -1.0)], trailing),
            Hazard::piecewise(&[], trailing),
        ];
        for curve in curves {
            for (start, w) in [(0.0, 2.0), (0.0, 3.0), (6.0, 3.0), (6.0, 0.0)] {
                cases.push(wait(curve, start, w));
            }
            cases.push(wait(curve, 2.0, SMALLEST));
        }
    }
    cases
}

/// A pair, or the second of two, that w just fills by a product or a difference that is rounded: from 0 the wait ends past it.
fn rounded() -> [(Hazard, f64); 3] {
    [
        (Hazard::piecewise(&[(7.0, 0.3)], 1.0), 2.1),
        (Hazard::piecewise(&[(1.0, 0.2), (7.0, 0.1)], 1.0), 0.8),
        (
            Hazard::piecewise(&[(0.6, SMALLEST), (0.9, 1.0)], 1.0),
            SMALLEST,
        ),
    ]
}

/// These, one with the next w, and one from a start above 0.
fn past_the_end() -> [EvaluationCase; 5] {
    let [first, second, third] = rounded().map(|(curve, w)| wait(curve, 0.0, w));
    let from_one = Hazard::piecewise(&[(15.0, 0.3)], 1.0);
    [
        first,
        wait(first.hazard, 0.0, first.w.next_up()),
        second,
        third,
        wait(from_one, 1.0, 4.2),
    ]
}

/// The same curves in a clock, each with its w as threshold. Not in the fixed lists.
pub(crate) fn rounded_sessions() -> [Session; 3] {
    rounded().map(|(curve, w)| {
        let set = hazard(1, 0, curve, 0.0);
        of(
            &[w],
            &[table_clock(), set, reschedule(0.0), Command::Deliver],
        )
    })
}

/// Curves that have a wait of 4.0 from age 0 for the threshold 2.0, in pieces 0, 1 and 2, the last one trailing.
fn curves() -> [Hazard; 3] {
    [
        Hazard::piecewise(&[(4.0, 0.5)], 9.0),
        Hazard::piecewise(&[(2.0, 0.5), (5.0, 0.5)], 0.0),
        Hazard::piecewise(&[(1.0, 0.5), (3.0, 0.5)], 0.5),
    ]
}

/// Equal waits in different pieces under each tie choice, of different causes and of one cause; and with a censor age around the event.
pub fn samples() -> Vec<SampleCase> {
    let mut cases = Vec::new();
    for tie in 0..3 {
        for causes in [
            [(3, 1), (7, 9), (5, 4)],
            [(7, 1), (7, 9), (7, 4)],
            [(9, 2), (4, 2), (4, 8)],
        ] {
            let mut case = tied(tie, &causes);
            for (record, hazard) in case.request.records.iter_mut().zip(curves()) {
                record.hazard = hazard;
            }
            cases.push(case.clone());
            case.request.records[..3].rotate_left(1);
            cases.push(case.clone());
            for censor in [4.0f64.next_down(), 4.0] {
                (case.request.has_censor, case.request.censor) = (1, censor);
                cases.push(case.clone());
            }
        }
    }
    cases.extend(aged());
    cases
}

/// P from an age at, before and after its ends, with thresholds from 0 to the largest.
fn aged() -> Vec<SampleCase> {
    let mut cases = Vec::new();
    for age in [0.0, 2.0f64.next_down(), 2.0, 5.0, 6.0] {
        for threshold in [-0.0, 0.5, 2.0, 1024.0] {
            let mut case = tied(0, &[(3, 1)]);
            case.request.records[0].hazard = table_hazard();
            case.request.age = age;
            case.thresholds = vec![threshold];
            cases.push(case);
        }
    }
    cases
}

/// P for a cause.
fn curve(cause: u32, now: f64) -> Command {
    hazard(cause, 0, table_hazard(), now)
}

/// P with threshold 4.0 is due at 9.0 in piece 2. The lists that go on from there: the piece stays with the winner through SET, REMOVE,
/// PAUSE and a RESCHEDULE or RESUME that finds no event; another event brings its own.
fn after_piece_2() -> Vec<Vec<Command>> {
    let deliver = Command::Deliver;
    vec![
        vec![deliver, reschedule(9.0), deliver],
        vec![constant(1, 0.5, 1.0), deliver],
        vec![curve(2, 0.0), deliver],
        vec![remove(1), deliver],
        vec![
            remove(1),
            reschedule(1.0),
            curve(2, 1.0),
            resume(1.0),
            deliver,
        ],
        vec![remove(1), resume(1.0), reschedule(2.0)],
        vec![pause(1.0), resume(1.0), deliver],
        vec![pause(1.0), remove(1), resume(2.0), pause(3.0)],
        vec![
            pause(1.0),
            reschedule(1.5),
            pause(2.0),
            resume(2.0),
            deliver,
        ],
        vec![pause(20.0), resume(20.0), deliver],
        vec![censored(0.0, 3.0), deliver, reschedule(3.0)],
        vec![censored(0.0, 9.0), deliver],
        vec![constant(2, 5.0, 0.0), reschedule(0.0), deliver],
        vec![
            constant(2, 5.0, 0.0),
            reschedule(0.0),
            remove(2),
            reschedule(0.0),
            deliver,
        ],
    ]
}

pub(crate) fn histories() -> Vec<Chosen> {
    let mut all = Vec::new();
    for policy in [RESTART, RETAIN] {
        for list in after_piece_2() {
            let begun = [curve(1, 0.0), reschedule(0.0)];
            let steps = [&begun[..], &list].concat();
            all.push((create(policy, 0, 10.0), FOUR_THEN_ONE_AND_A_HALF, steps));
        }
    }
    for tie in 0..3 {
        let mut steps: Vec<Command> = (1..)
            .zip(curves())
            .map(|(cause, h)| tied_cause(cause, h))
            .collect();
        steps.extend([reschedule(0.0), Command::Deliver]);
        all.push((create(RESTART, tie, 1.0), TWO_TWICE, steps));
    }
    all
}

/// Where the thresholds 2.0 and 2.0 stand in the stream; the one after them is 1.0.
const TWO_TWICE: u64 = 2;

/// Causes with equal waits for the threshold 2.0; the third, with threshold 1.0, has half the rates.
fn tied_cause(cause: u32, mut curve: Hazard) -> Command {
    if cause == 3 {
        curve.first /= 2.0;
        curve.pairs.iter_mut().for_each(|pair| pair.rate /= 2.0);
    }
    hazard(cause, cause % 3, curve, 0.0)
}

/// The same lists with an UNDO after each command, and each command again.
pub(crate) fn sessions() -> Vec<Session> {
    let begun = [table_clock(), curve(1, 0.0), reschedule(0.0)];
    let undone = |command: Command| [command, Command::Undo, command];
    let lists = after_piece_2().into_iter();
    lists
        .map(|list| {
            let again: Vec<Command> = list.into_iter().flat_map(undone).collect();
            of(&[4.0, 1.5], &[&begun[..], &again].concat())
        })
        .collect()
}
