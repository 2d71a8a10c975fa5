//! Lists of inputs for the command door: the commands of a random session one by one, with bytes
//! that are no command among them.

use crate::random::Random;
use crate::random_sessions::session;
use reference::command::{SET_BYTES, width};

/// Inputs, stream and journal length.
pub struct Inputs {
    pub inputs: Vec<Vec<u8>>,
    pub stream: Vec<u8>,
    pub journal: usize,
}

pub fn inputs(random: &mut Random) -> Inputs {
    let session = session(random);
    let mut inputs = Vec::new();
    for command in split(&session.commands) {
        if random.chance(5) {
            inputs.push(junk(random));
        }
        let mut input = command.to_vec();
        if random.chance(10) {
            input.extend(junk(random));
        }
        inputs.push(input);
    }
    Inputs {
        inputs,
        stream: session.stream,
        journal: session.journal,
    }
}

/// The commands of a list; the last part may be cut or unknown.
pub fn split(mut bytes: &[u8]) -> Vec<&[u8]> {
    let mut commands = Vec::new();
    while let Some(code) = bytes.first() {
        let read = width(*code).unwrap_or(bytes.len()).min(bytes.len());
        let (command, rest) = bytes.split_at(read);
        commands.push(command);
        bytes = rest;
    }
    commands
}

/// Any bytes; some begin with a command's code.
fn junk(random: &mut Random) -> Vec<u8> {
    let length = random.index(SET_BYTES + 20);
    let mut bytes: Vec<u8> = (0..length).map(|_| random.word() as u8).collect();
    if let Some(code) = bytes.first_mut().filter(|_| random.chance(50)) {
        *code = random.below(10) as u8;
    }
    bytes
}
