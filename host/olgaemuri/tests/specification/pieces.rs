//! The piece of an inversion: the document's worked numbers, by its own walk and by the engine.

use crate::common::{create, reschedule};
use crate::document::table;
use crate::lent::Lent;
use crate::rates::float;
use olgaemuri::{Command, Engine, Hazard, Pair, Policy};

/// One row of the table.
struct Row {
    pairs: Vec<Pair>,
    trailing: f64,
    start: f64,
    w: f64,
    wait: Option<f64>,
    piece: usize,
}

fn rows() -> Vec<Row> {
    let rows = table("| pairs | trailing rate | given | wait | piece | why |").into_iter();
    let pair = |cell: &str| {
        let (end, rate) = cell.split_once(':').expect("an end and a rate");
        Pair {
            end: float(end),
            rate: float(rate),
        }
    };
    let row = |cells: Vec<&str>| {
        let pairs = cells[0].split(", ").filter(|cell| *cell != "none");
        let given = cells[2].strip_prefix("wait from ").expect("a wait");
        let (start, w) = given.split_once(" for ").expect("start and w");
        Row {
            pairs: pairs.map(pair).collect(),
            trailing: float(cells[1]),
            start: float(start),
            w: float(w),
            wait: Some(cells[3]).filter(|cell| *cell != "none").map(float),
            piece: cells[4].parse().expect("a number"),
        }
    };
    rows.map(row).collect()
}

/// The wait and the piece as the document's walk gives them.
fn walked(row: &Row) -> (Option<f64>, usize) {
    if row.w <= 0.0 {
        return (Some(0.0), 0);
    }
    let positive = |rate: f64| if rate > 0.0 { rate } else { 0.0 };
    let (mut w, mut cur) = (row.w, row.start);
    let told = |wait: f64, piece: usize| (Some(wait), if wait.is_finite() { piece } else { 0 });
    for (place, pair) in row.pairs.iter().enumerate() {
        if pair.end <= row.start {
            continue;
        }
        let r = positive(pair.rate);
        let capacity = r * (pair.end - cur);
        if r > 0.0 && w <= capacity {
            return told((cur + (w / r)) - row.start, place);
        }
        (w, cur) = (w - capacity, pair.end);
    }
    let r = positive(row.trailing);
    if r == 0.0 {
        return (None, 0);
    }
    told((cur + (w / r)) - row.start, row.pairs.len())
}

/// The event by an engine, whose inversions start at 0: wait and piece; none where there is no event.
fn run(row: &Row) -> Option<(f64, usize)> {
    let mut engine = Engine::new([row.w]);
    engine.execute(&create(Policy::RetainResidual));
    let hazard = Hazard::PiecewiseConstant {
        pairs: row.pairs.clone(),
        trailing: row.trailing,
    };
    let set = Command::Set {
        clock: 0,
        cause: 1,
        priority: 0,
        hazard,
        now: 0.0,
    };
    assert!(engine.execute(&set).is_accepted());
    let answer = engine.execute(&reschedule(0.0));
    assert!(answer.event || answer.piece == 0);
    let found = (answer.delta, usize::from(answer.piece));
    answer.event.then_some(found)
}

#[test]
fn worked_numbers() {
    let rows = rows();
    let mut shown = 0;
    for row in &rows {
        let wait = row.wait.map(f64::to_bits);
        let (found, piece) = walked(row);
        assert_eq!((found.map(f64::to_bits), piece), (wait, row.piece));
        if row.start == 0.0 {
            let finite = row.wait.filter(|wait| wait.is_finite());
            assert_eq!(run(row), finite.map(|wait| (wait, row.piece)));
            shown += 1;
        }
    }
    assert_eq!((rows.len(), shown), (12, 10));
}

/// Where clock 0 holds its winner's cause and piece.
const WINNER_CAUSE: (usize, usize) = (1, 3);
const WINNER_PIECE: (usize, usize) = (1, 5);

/// DELIVER gives the piece that the state holds, but 0 for a censored winner.
#[test]
fn a_piece_that_is_handed_in() {
    for (cause, piece) in [(1, 77), (u64::from(u32::MAX), 0)] {
        let mut lent = Lent::opened();
        lent.give(&create(Policy::Restart));
        lent.give(&crate::common::set(1, 0.5, 0.0));
        lent.give(&reschedule(0.0));
        lent.words[WINNER_CAUSE.0][WINNER_CAUSE.1] = cause;
        lent.words[WINNER_PIECE.0][WINNER_PIECE.1] = 77;
        let answer = lent.answer(&Command::Deliver.to_bytes());
        assert_eq!((answer.is_accepted(), answer.piece), (true, piece));
        assert_eq!(lent.words[WINNER_PIECE.0][WINNER_PIECE.1], 0);
    }
}

/// UNDO runs the applied commands again, and the piece is part of what must come out.
#[test]
fn a_changed_piece_is_refused_by_13() {
    let mut lent = Lent::opened();
    lent.give(&create(Policy::Restart));
    lent.give(&crate::common::set(1, 0.5, 0.0));
    lent.give(&reschedule(0.0));
    lent.words[WINNER_PIECE.0][WINNER_PIECE.1] = 1;
    let before = lent.clone();
    assert_eq!(lent.number(&Command::Undo.to_bytes()), 13);
    assert_eq!(lent, before);
    lent.words[WINNER_PIECE.0][WINNER_PIECE.1] = 0;
    assert_eq!(lent.number(&Command::Undo.to_bytes()), 0);
}
