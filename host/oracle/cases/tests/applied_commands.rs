//! Demand 3, run: after any list of inputs, state and journal are those of a newly opened engine
//! that is given the applied commands alone and accepts each; UNDO after every prefix; and for each
//! clock, requests made = withdrawn + delivered + queued by the ledger.

use cases::inputs::{Inputs, inputs};
use cases::random::Random;
use reference::answer::Answer;
use reference::command::Command;
use reference::dump::dump_state;
use reference::execute::execute;
use reference::ledger::Ledger;
use reference::state::{State, applied, open};
use reference::validation::QUEUE;

const SEED: u64 = 0x7265_706C_6179;
const LISTS: usize = 150;

#[derive(Clone)]
struct Engine<'a> {
    state: State,
    journal: Vec<u8>,
    stream: &'a [u8],
}

impl<'a> Engine<'a> {
    fn open(given: &'a Inputs) -> Self {
        let mut journal = vec![0x77; given.journal];
        Self {
            state: open(&mut journal),
            journal,
            stream: &given.stream,
        }
    }

    fn give(&mut self, input: &[u8]) -> Answer {
        execute(&mut self.state, &mut self.journal, self.stream, input)
    }
}

/// The state and the journal, every byte.
fn whole(engine: &Engine) -> (Vec<u8>, Vec<u8>) {
    (dump_state(&engine.state), engine.journal.clone())
}

/// Document 01: an accepted command, cut to its width, goes to the end of the applied ones, an
/// accepted UNDO takes the last of them off, a refused input leaves them.
fn note(list: &mut Vec<Vec<u8>>, input: &[u8], answer: &Answer) {
    if answer.number == 0 {
        match Command::read(input).expect("a command that was accepted") {
            Command::Undo => drop(list.pop()),
            command => list.push(input[..command.width()].to_vec()),
        }
    }
}

/// A newly opened engine given the commands, each of which it accepts, and the ledger of them.
fn fresh<'a>(given: &'a Inputs, commands: &[Vec<u8>]) -> (Engine<'a>, Ledger) {
    let mut engine = Engine::open(given);
    let mut ledger = Ledger::default();
    for bytes in commands {
        let answer = engine.give(bytes);
        assert_eq!(answer.number, 0);
        let command = Command::read(bytes).expect("a command that was accepted");
        ledger.enter(&command, &answer);
    }
    (engine, ledger)
}

/// Runs the test after every prefix of every list: engine, applied commands, given buffers.
fn after_every_prefix(test: impl Fn(&Engine, &[Vec<u8>], &Inputs)) {
    let mut random = Random::new(SEED);
    for _ in 0..LISTS {
        let given = inputs(&mut random);
        let mut engine = Engine::open(&given);
        let mut list = Vec::new();
        test(&engine, &list, &given);
        for input in &given.inputs {
            let answer = engine.give(input);
            note(&mut list, input, &answer);
            test(&engine, &list, &given);
        }
    }
}

#[test]
fn state_and_journal_are_those_of_the_applied_commands() {
    after_every_prefix(|engine, list, given| {
        assert_eq!(whole(engine), whole(&fresh(given, list).0));
        let bytes = list.concat();
        assert_eq!(applied(&engine.state, &engine.journal), Ok(&bytes[..]));
    });
}

#[test]
fn undo_after_every_prefix() {
    after_every_prefix(|engine, list, given| {
        let mut undone = engine.clone();
        let answer = undone.give(&Command::Undo.to_bytes());
        match list.split_last() {
            None => assert_eq!(answer.number, 12),
            Some((_, others)) => {
                assert_eq!(answer, Answer::default());
                assert_eq!(whole(&undone), whole(&fresh(given, others).0));
            }
        }
    });
}

#[test]
fn requests_made_are_withdrawn_delivered_or_queued() {
    after_every_prefix(|engine, list, given| {
        let (_, ledger) = fresh(given, list);
        let queue = &engine.state.scheduler.queue;
        for (name, account) in (0..).zip(ledger.accounts) {
            let queued: Vec<_> = queue.iter().filter(|q| q.clock == name).collect();
            let counted = account.withdrawn + account.delivered + queued.len() as u64;
            assert_eq!(account.made, counted);
            let pending: Vec<_> = account.pending.into_iter().collect();
            let orders: Vec<_> = queued.iter().map(|q| q.order()).collect();
            assert_eq!(orders, pending);
        }
    });
}

/// Not refused by 1, whatever was given before; nor by 13.
#[test]
fn an_opened_engine_refuses_nothing_by_1_or_13() {
    let mut random = Random::new(!SEED);
    let mut most = 0;
    for _ in 0..4 * LISTS {
        let given = inputs(&mut random);
        let mut engine = Engine::open(&given);
        for input in &given.inputs {
            let number = engine.give(input).number;
            assert!(number != 1 && number != 13);
            most = most.max(engine.state.scheduler.queue.len());
        }
    }
    assert!((8..=QUEUE).contains(&most), "{most}");
}
