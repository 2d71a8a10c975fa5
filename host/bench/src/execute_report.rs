//! The benchmark of an engine that stays open: the commands of a session one by one, and one undo with its command again.

use crate::engine_workloads::{self as workloads, EngineWorkload};
use crate::timing::best;
use olgaemuri_sys::{ROW, STATE_FLOAT_ROWS, STATE_WORD_ROWS};
use reference::answer::ANSWER_BYTES;
use reference::command::width;
use std::hint::black_box;

const SESSION_COMMANDS: usize = 1000;

const HEAD: &str = "
An engine that stays open, in memory of its caller: each input by a call of its own (olgaemuri_execute), which validates the
state that it is lent. Opening is among the calls of the first row; UNDO replays, compares the states, and the command that it
took back is given again.";

pub fn print() {
    println!("{HEAD}");
    let workload = workloads::mixed(SESSION_COMMANDS, 0);
    let mut engine = OpenEngine::new(&workload);
    let mut session = || {
        engine.run(&workload);
    };
    let [ns] = best(workload.command_count(), [&mut session]);
    row("mixed session, no UNDO, ns per command", ns);
    for count in [100, 1000, 5000] {
        let workload = workloads::mixed(count, 0);
        let mut engine = OpenEngine::new(&workload);
        let last = engine.run(&workload);
        let mut undone = || {
            engine.give(&[UNDO], &workload.stream);
            engine.give(&workload.commands[last..], &workload.stream);
        };
        let [ns] = best(1, [&mut undone]);
        row(
            &format!("UNDO and its command again, {count} applied, ns"),
            ns,
        );
    }
}

const UNDO: u8 = 8;

fn row(name: &str, ns: f64) {
    println!("{name:<50}{ns:>27.0}");
}

struct OpenEngine {
    words: Vec<[u64; ROW]>,
    floats: Vec<[f64; ROW]>,
    journal: Vec<u8>,
}

impl OpenEngine {
    fn new(workload: &EngineWorkload) -> Self {
        Self {
            words: vec![[0; ROW]; STATE_WORD_ROWS],
            floats: vec![[0.0; ROW]; STATE_FLOAT_ROWS],
            journal: vec![0; workload.journal],
        }
    }

    /// Opens the engine and gives it the commands; where the last one begins that was accepted.
    fn run(&mut self, workload: &EngineWorkload) -> usize {
        let opened = olgaemuri_sys::open(&mut self.words, &mut self.floats, &mut self.journal);
        assert_eq!(opened, 0, "the rows have a state's sizes");
        let (mut at, mut last) = (0, 0);
        while at < workload.commands.len() {
            if self.give(&workload.commands[at..], &workload.stream) == 0 {
                last = at;
            }
            at += width(workload.commands[at]).expect("a code of the table");
        }
        last
    }

    fn give(&mut self, input: &[u8], stream: &[u8]) -> u8 {
        let mut answer = [0; ANSWER_BYTES];
        black_box(olgaemuri_sys::execute(
            &mut self.words,
            &mut self.floats,
            stream,
            &mut self.journal,
            black_box(input),
            &mut answer,
        ))
    }
}
