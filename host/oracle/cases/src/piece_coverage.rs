//! What a session's steps show of pieces (document 02, change 6).

use crate::sessions::Step;
use reference::clock::Clock;
use reference::command::Command;
use reference::hazard::Hazard;

pub fn of_pieces(steps: &[Step]) -> [(&'static str, bool); 6] {
    let some = |test: fn(&Step) -> bool| steps.iter().any(test);
    [
        ("piece queued", some(queues_piece)),
        ("trailing piece", some(queues_trailing)),
        ("piece delivered", some(delivers_piece)),
        ("piece replaced", some(replaces_piece)),
        ("piece kept without event", some(keeps_piece)),
        ("piece given back", steps.windows(2).any(gives_back)),
    ]
}

/// The clock that a RESCHEDULE or RESUME names, as the command finds it.
fn planned(step: &Step) -> Option<&Clock> {
    match &step.command {
        Some(Command::Reschedule(operands) | Command::Resume(operands)) => {
            let clocks = &step.before.clocks;
            clocks.get(usize::from(operands.clock))?.as_ref()
        }
        _ => None,
    }
}

fn queues_piece(step: &Step) -> bool {
    planned(step).is_some() && step.answer.piece > 0
}

/// The piece is the count of the winner's pairs, and not 0.
fn queues_trailing(step: &Step) -> bool {
    let mut channels = planned(step)
        .into_iter()
        .flat_map(|clock| clock.channels.values());
    let winner = channels.find(|channel| channel.cause_id.0 == step.answer.cause);
    let hazard = winner.and_then(|channel| Hazard::of(&channel.hazard));
    queues_piece(step) && hazard.is_some_and(|hazard| hazard.count == step.answer.piece)
}

fn delivers_piece(step: &Step) -> bool {
    step.command == Some(Command::Deliver) && step.answer.piece > 0
}

/// An event in another piece than that of the winner before.
fn replaces_piece(step: &Step) -> bool {
    let held = planned(step).map_or(0, |clock| clock.piece);
    held > 0 && step.answer.event && step.answer.piece != held
}

/// No event, and the winner before has a piece.
fn keeps_piece(step: &Step) -> bool {
    let held = planned(step).map_or(0, |clock| clock.piece);
    held > 0 && step.answer.number == 0 && !step.answer.event
}

/// An UNDO after which a clock has another piece. The step after it has the state that it leaves.
fn gives_back(pair: &[Step]) -> bool {
    let pieces = |step: &Step| {
        let held = step.before.clocks.iter();
        held.map(|clock| clock.as_ref().map_or(0, |clock| clock.piece))
            .collect::<Vec<u8>>()
    };
    pair[0].command == Some(Command::Undo) && pieces(&pair[0]) != pieces(&pair[1])
}
