//! Kind 4, Weibull with shape 2: its least scale, its worked numbers, and states with it that are handed in.

use crate::common::{create, reschedule, set_wear};
use crate::document::table;
use crate::lent::{DELIVER, INVALID_STATE, Lent, QUEUE_EMPTY};
use crate::limits::{answer, limit};
use crate::rates::float;
use olgaemuri::{Engine, Policy};
use olgaemuri_sys::counts;

#[test]
fn the_least_scale() {
    let (cell, refusal) = limit("least scale of kind 4 that is above 0");
    let least = float(cell);
    for (scale, number) in [
        (least, 0),
        (least.next_down(), refusal),
        (0f64.next_up(), refusal),
        (0.0, 0),
        (-least, 0),
        (-least.next_down(), 0),
    ] {
        assert_eq!(answer(1.0, set_wear(1, scale, 0.0)), number, "{scale}");
    }
}

/// What the document asks for in a row.
#[derive(Debug)]
enum Given {
    Hazard(f64),
    Cumulative(f64),
    /// From this start, for so much.
    Wait(f64, f64),
}

impl Given {
    fn read(cell: &str) -> Self {
        let (what, at) = cell.rsplit_once(" at ").unwrap_or((cell, ""));
        match what {
            "hazard" => Self::Hazard(float(at)),
            "cumulative hazard" => Self::Cumulative(float(at)),
            _ => {
                let numbers = cell.strip_prefix("wait from ").expect("a wait");
                let (start, w) = numbers.split_once(" for ").expect("start and w");
                Self::Wait(float(start), float(w))
            }
        }
    }
}

/// The value that the document's formulas give, the root by the processor; none where there is no wait.
fn computed(scale: f64, given: &Given) -> Option<f64> {
    let positive = |value: f64| if value > 0.0 { value } else { 0.0 };
    let cumulative = |t: f64| {
        let q = t / scale;
        if t > 0.0 && scale > 0.0 { q * q } else { 0.0 }
    };
    match *given {
        Given::Hazard(t) if t < 0.0 || scale <= 0.0 => Some(0.0),
        Given::Hazard(t) => Some((2.0 / scale) * (positive(t) / scale)),
        Given::Cumulative(t) => Some(cumulative(t)),
        Given::Wait(_, w) if w <= 0.0 => Some(0.0),
        Given::Wait(..) if scale <= 0.0 => None,
        Given::Wait(start, w) => {
            let start = positive(start);
            let root = (cumulative(start) + w).sqrt();
            Some(positive((scale * root) - start))
        }
    }
}

/// The value by an engine, where it can show it: what a second SET counts, and the wait from 0.
fn run(scale: f64, given: &Given) -> Option<Option<f64>> {
    let wearing = |threshold: f64| {
        let mut engine = Engine::new([threshold]);
        engine.execute(&create(Policy::RetainResidual));
        assert!(engine.execute(&set_wear(1, scale, 0.0)).is_accepted());
        engine
    };
    match *given {
        Given::Cumulative(t) => {
            let mut engine = wearing(1024.0);
            assert!(engine.execute(&set_wear(1, scale, t)).is_accepted());
            let clock = engine.clock(0).expect("a clock");
            Some(clock.causes().next().map(|cause| cause.accumulated))
        }
        Given::Wait(0.0, w) => {
            let answer = wearing(w).execute(&reschedule(0.0));
            Some(answer.event.then_some(answer.delta))
        }
        _ => None,
    }
}

#[test]
fn worked_numbers() {
    let rows = table("| scale | given | value | why |");
    let mut shown = 0;
    for row in &rows {
        let (scale, given) = (float(row[0]), Given::read(row[1]));
        let value = Some(row[2]).filter(|cell| *cell != "none").map(float);
        let bits = |value: Option<f64>| value.map(f64::to_bits);
        assert_eq!(bits(computed(scale, &given)), bits(value), "{row:?}");
        if let Some(found) = run(scale, &given) {
            assert_eq!(bits(found), bits(value), "{row:?}");
            shown += 1;
        }
    }
    assert_eq!((rows.len(), shown), (20, 12));
}

/// Where the floats of channel 0 of clock 0 lie: accumulated, threshold, interval start, the scale; then ends and rates.
const CHANNEL: usize = 1;

fn worn() -> Lent {
    let mut lent = Lent::opened();
    lent.give(&create(Policy::RetainResidual));
    lent.give(&set_wear(1, 400.0, 0.0));
    lent
}

#[test]
fn a_state_that_5_would_refuse_is_refused_by_1() {
    let least = 2f64.powi(-40);
    for (scale, number) in [
        (least, QUEUE_EMPTY),
        (-0.0, QUEUE_EMPTY),
        (-1.0, QUEUE_EMPTY),
        (least.next_down(), INVALID_STATE),
        (0f64.next_up(), INVALID_STATE),
        (2f64.powi(40).next_up(), INVALID_STATE),
        (f64::NAN, INVALID_STATE),
    ] {
        let mut lent = worn();
        assert_eq!(lent.floats[CHANNEL][3], 400f64.to_bits());
        lent.floats[CHANNEL][3] = scale.to_bits();
        assert_eq!(lent.number(&DELIVER), number, "{scale}");
    }
}

#[test]
fn a_state_that_6_would_refuse_is_refused_by_1() {
    for (row, place) in [(CHANNEL + 1, 0), (CHANNEL + 1, 7), (CHANNEL + 2, 3)] {
        for bits in [1, 1 << 63] {
            let mut lent = worn();
            lent.floats[row][place] = bits;
            assert_eq!(lent.number(&DELIVER), INVALID_STATE, "{row} {place}");
        }
    }
    let mut lent = worn();
    let pairs = &mut lent.words[2][3];
    assert_eq!(*pairs, 0);
    *pairs = 1;
    assert_eq!(lent.number(&DELIVER), INVALID_STATE);
}

/// Only a state handed in can have so much left that the sum is infinite.
#[test]
fn an_infinite_sum_is_no_candidate() {
    for (accumulated, queued) in [(0.0, 1), (-1e308, 0)] {
        let mut lent = worn();
        lent.floats[CHANNEL][0] = f64::to_bits(accumulated);
        lent.floats[CHANNEL][1] = 1e308f64.to_bits();
        lent.give(&reschedule(0.0));
        assert_eq!(counts(&lent.words).queued, queued, "{accumulated}");
    }
}
