//! Commands and answers in a planner's words.

use super::out_of_range::out_of_range;
use super::report::{Report, Row};
use olgaemuri::text::{Names, columns, cut, float_text};
use olgaemuri::{Command, Hazard, Input, Pair, Piece, Refusal, Step};

/// A float for tables: short, and rounded where its digits are many. CSV and JSON have all of them.
pub fn rounded(value: f64) -> String {
    let exact = float_text(value);
    let size = value.abs();
    if exact.len() <= 10 || value.is_nan() {
        exact
    } else if (1e-3..1e12).contains(&size) {
        let text = format!("{value:.4}");
        text.trim_end_matches('0').trim_end_matches('.').to_string()
    } else {
        format!("{value:.4e}")
    }
}

/// The first word of an input.
pub fn input_word(input: &Input) -> &'static str {
    input.command().map_or("raw", Command::word)
}

/// The operands but for machine and time, which have columns of their own.
pub fn operands(input: &Input, names: &Names) -> String {
    match input {
        Input::Command(command) => command_operands(command, names),
        Input::Raw(_) => input.to_string().replace("raw ", "").replace('\n', " "),
    }
}

/// Operands in a column, cut between two words where they are long.
pub fn shortened(operands: &str) -> String {
    const MOST: usize = 42;
    if columns(operands) <= MOST {
        return operands.to_string();
    }
    let kept = cut(operands, MOST);
    match kept.rsplit_once(' ') {
        Some((words, _)) => format!("{words} …"),
        None => kept,
    }
}

fn command_operands(command: &Command, names: &Names) -> String {
    match command {
        Command::Create {
            policy, tie, scale, ..
        } => {
            format!("{policy}, {tie}, scale {}", rounded(*scale))
        }
        Command::Set { cause, hazard, .. } => {
            format!("{}: {}", names.cause(*cause), hazard_words(hazard))
        }
        Command::Remove { cause, .. } => names.cause(*cause),
        Command::Reschedule {
            censor, priority, ..
        }
        | Command::Resume {
            censor, priority, ..
        } => schedule_words(*censor, *priority),
        _ => String::new(),
    }
}

/// A priority of 0 is left out.
fn schedule_words(censor: Option<f64>, priority: i32) -> String {
    let censor = censor.map(|time| format!("censor {}", rounded(time)));
    let priority = (priority != 0).then(|| format!("priority {priority}"));
    let words: Vec<String> = censor.into_iter().chain(priority).collect();
    words.join(", ")
}

/// A piece of a rate curve: its number, its rate, and where it lies.
pub fn piece_words(piece: &Piece) -> String {
    let (number, rate, from) = (piece.number, rounded(piece.rate), rounded(piece.from));
    match piece.to.map(rounded) {
        Some(to) => format!("piece {number} (rate {rate} from {from} to {to})"),
        None => format!("piece {number} (rate {rate} from {from} on)"),
    }
}

pub fn hazard_words(hazard: &Hazard) -> String {
    match hazard {
        Hazard::Constant(rate) => format!("rate {}", rounded(*rate)),
        Hazard::Gompertz(eta) => format!("eta {}", rounded(*eta)),
        Hazard::PiecewiseConstant { pairs, trailing } => {
            let piece = |pair: &Pair| format!("{} to {}, ", rounded(pair.rate), rounded(pair.end));
            let pieces: String = pairs.iter().map(piece).collect();
            format!("{pieces}then {}", rounded(*trailing))
        }
        Hazard::Weibull(scale) => format!("weibull scale {}", rounded(*scale)),
        _ => "zero".to_string(),
    }
}

/// The answer in one or two words.
pub fn answer(row: &Row) -> String {
    let answer = &row.step.answer;
    if let Some(refusal) = answer.refusal {
        return format!("refused by {}", refusal.number());
    }
    if let Some(undone) = row.undoes {
        return format!("took back {undone}");
    }
    let words = match row.step.input.command() {
        Some(Command::Deliver) => "delivered",
        Some(Command::Reschedule { .. } | Command::Resume { .. }) => {
            match (answer.event, answer.withdrawn) {
                (true, true) => "rescheduled",
                (true, false) => "scheduled",
                (false, true) => "withdrawn, none due",
                (false, false) => "none due",
            }
        }
        _ if answer.withdrawn => "withdrawn",
        _ => "accepted",
    };
    words.to_string()
}

/// What a refusal means; document 01's clocks are called machines here.
pub fn meaning(refusal: Refusal) -> String {
    refusal.meaning().replace("clock", "machine")
}

/// Why a step was refused, if it was: what its refusal means, or for 5 which operands are out of range.
pub fn why(step: &Step) -> Option<String> {
    let refusal = step.answer.refusal?;
    let command = step.input.command();
    let command = command.filter(|_| refusal == Refusal::OutOfRange);
    let operands = command.map(out_of_range).filter(|words| !words.is_empty());
    Some(operands.unwrap_or_else(|| meaning(refusal)))
}

/// So many of a thing.
pub fn counted(count: usize, thing: &str) -> String {
    let ending = if count == 1 { "" } else { "s" };
    format!("{count} {thing}{ending}")
}

/// What else there is to say: why a command was refused, or that it was undone.
pub fn note(row: &Row) -> String {
    match (why(row.step), row.undone_by) {
        (Some(why), _) => why,
        (None, Some(undo)) => format!("undone by {undo}"),
        (None, None) => String::new(),
    }
}

/// Whether the refusal ends a run.
pub fn ends_run(refusal: Refusal) -> bool {
    matches!(refusal, Refusal::UnknownCode | Refusal::CutShort)
}

/// By which number a step was refused, and why; none where it was accepted.
pub fn refused_words(step: &Step) -> Option<String> {
    why(step).map(|why| format!("refused by {}: {why}", step.answer.number()))
}

/// A row's answer as a sentence.
pub fn told(report: &Report, row: &Row) -> String {
    let answer = &row.step.answer;
    if let Some(refused) = refused_words(row.step) {
        return refused;
    }
    if let Some(undone) = row.undoes {
        return format!("took back: {}", report.row(undone).step.input);
    }
    let withdrawn = if answer.withdrawn {
        "the breakdown scheduled before is withdrawn"
    } else {
        ""
    };
    let event = event_words(row, report.names());
    let parts: Vec<&str> = [withdrawn, &event]
        .into_iter()
        .filter(|part| !part.is_empty())
        .collect();
    if parts.is_empty() {
        "done".to_string()
    } else {
        parts.join("; ")
    }
}

/// What was scheduled or delivered, or that nothing is due.
fn event_words(row: &Row, names: &Names) -> String {
    let (answer, command) = (&row.step.answer, row.step.input.command());
    let machine = row
        .step
        .clock
        .map_or(String::new(), |machine| names.machine(machine));
    let (after, ticks) = (rounded(answer.delta), answer.ticks);
    // a breakdown at once, with nothing left of its threshold, is told without the piece 0 of its answer
    let struck = row.step.struck();
    let struck = struck.filter(|piece| piece.number > 0 || answer.delta > 0.0);
    let struck = struck.map_or(String::new(), |piece| {
        format!(", in {}", piece_words(&piece))
    });
    let what = match (answer.event, answer.censored) {
        (false, _) => {
            let asked = matches!(
                command,
                Some(Command::Reschedule { .. } | Command::Resume { .. })
            );
            return if asked {
                format!("no breakdown of {machine} is due")
            } else {
                String::new()
            };
        }
        (true, true) => format!("the end of observation of {machine}"),
        (true, false) => format!("a breakdown of {machine} by {}", names.cause(answer.cause)),
    };
    match command {
        Some(Command::Deliver) => {
            format!("delivered: {what}, {after} after it was scheduled, at tick {ticks}{struck}")
        }
        _ => format!("scheduled: {what}, in {after}, at tick {ticks}{struck}"),
    }
}

#[cfg(test)]
mod tests {
    use super::*;

    #[test]
    fn long_floats_are_rounded() {
        let cases = [
            (4.0, "4"),
            (-0.0, "-0"),
            (0.12345678, "0.12345678"),
            (0.123456789, "0.1235"),
            (26.363636363636363, "26.3636"),
            (99999.99999999, "100000"),
            (1e-7, "1e-7"),
            (1.23456789e-7, "1.2346e-7"),
            (1.23456789e300, "1.2346e300"),
            (f64::NEG_INFINITY, "-inf"),
        ];
        for (value, text) in cases {
            assert_eq!(rounded(value), text);
        }
    }
}
