//! The benchmark of the engine: the batch run, opening, and one undo; both sides in one run, first held to the same bytes.

use crate::engine_workloads::{self as workloads, EngineWorkload};
use crate::timing::best;
use cases::sessions::Run;
use reference::batch::{self, RESULT_BYTES};
use reference::unvalidated;
use std::cell::RefCell;
use std::hint::black_box;

/// The oracle as written, the Rust without what a run from opening never needs, Rattle.
const SIDES: [Run; 3] = [batch::run, unvalidated::run, olgaemuri_sys::run];

const OPENED_JOURNAL: usize = 1 << 20;
const SESSION_COMMANDS: usize = 1000;
/// UNDOs in a thousand commands.
const SOME_UNDOS: u64 = 10;
/// UNDO and the last command again, so often for each side: where nothing is replayed, 8 could not be told from none.
const PAIRS: [usize; 3] = [8, 8, 1024];
/// A workload of so many commands and undos.
type Undos = fn(usize, usize) -> EngineWorkload;

const HEAD: &str = "
The engine's batch run. All sides are given the same bytes and leave the same bytes, in the same buffers in turn; nothing is
cleared between runs, and the journal of a run was written by the run before it.
Oracle: document 01's rules over the Rust, as written: every state validated, UNDO with a journal of its own and a
comparison of states. Rust: the same without these, which no run from opening needs; UNDO replays straight from the journal.
Rattle: no state is validated, and UNDO compares none and replays only where a command needs the state (proved needless).
ratio = the other's time / Rattle's. An undo's time is a run of n commands and of undos less a run of the n commands alone, for
one undo: each followed by the command that it took back; 8 in a row, then that command; each after a refused command and
followed by the command that it took back, so that it needs a replay.";

pub fn print() {
    println!("{HEAD}");
    println!(
        "{:<50}{:>9}{:>9}{:>9}{:>9}{:>8}",
        "", "Oracle", "Rust", "Rattle", "Oracle/", "Rust/"
    );
    print_sessions();
    print_opening();
    print_undos();
}

fn print_sessions() {
    let sessions = [
        (
            "mixed session, no UNDO",
            workloads::mixed(SESSION_COMMANDS, 0),
        ),
        (
            "mixed session, 1 UNDO in 100",
            workloads::mixed(SESSION_COMMANDS, SOME_UNDOS),
        ),
    ];
    for (name, workload) in sessions {
        let times = checked_times(&workload).map(|ns| ns / workload.command_count() as f64);
        row(&format!("{name}, ns per command"), times);
        let [oracle, rust, rattle] = times.map(|ns| 1e9 / ns);
        println!(
            "{:<50}{oracle:>9.0}{rust:>9.0}{rattle:>9.0}",
            "    commands per second"
        );
    }
}

/// An empty list of commands: the journal is filled with zero, and the result written. Beside it a memset of the journal alone.
fn print_opening() {
    let workload = EngineWorkload::opening(OPENED_JOURNAL);
    hold_to_same_bytes(&workload);
    let [oracle, rust, rattle] = SIDES;
    let [oracle, rust, rattle, memset] = times([oracle, rust, rattle, memset], &workload);
    row(
        "opening a journal of 2^20 bytes, ns",
        [oracle, rust, rattle],
    );
    println!(
        "{:<50}{memset:>9.0}   Rattle / memset {:.2}",
        "    memset of 2^20 bytes, ns",
        rattle / memset
    );
}

fn memset(_: &[u8], _: &[u8], journal: &mut [u8], _: &mut [u8], _: &mut [u8]) -> u8 {
    journal.fill(0);
    0
}

/// After so many applied commands: an UNDO right after its command, each of several in a row before a command, and one that needs a
/// replay of its own.
fn print_undos() {
    let kinds: [(&str, [usize; 3], Undos); 3] = [
        ("UNDO right after its command", PAIRS, workloads::undone),
        ("each of 8 UNDOs in a row", [8; 3], workloads::reverted),
        ("UNDO with a replay of its own", [8; 3], workloads::replayed),
    ];
    for (name, undos, workload) in kinds {
        for count in [100, 1000, 5000] {
            let times = added_time(count, undos, workload);
            row(&format!("{name}, {count} applied, ns"), times);
        }
    }
}

/// For each side, a run of `count` commands and its `added` undos less a run of the commands alone, for one undo.
fn added_time(count: usize, added: [usize; 3], workload: Undos) -> [f64; 3] {
    let alone = checked_times(&workload(count, 0));
    [0, 1, 2].map(|side| {
        let workload = workload(count, added[side]);
        hold_to_same_bytes(&workload);
        let [with] = times([SIDES[side]], &workload);
        (with - alone[side]) / added[side] as f64
    })
}

fn row(name: &str, [oracle, rust, rattle]: [f64; 3]) {
    println!(
        "{name:<50}{oracle:>9.0}{rust:>9.0}{rattle:>9.0}{:>9.2}{:>8.2}",
        oracle / rattle,
        rust / rattle
    );
}

/// Every side ends at the list's end and leaves the same bytes.
fn hold_to_same_bytes(workload: &EngineWorkload) {
    let [oracle, rust, rattle] = SIDES.map(|side| {
        let mut buffers = Buffers::new(workload);
        assert_eq!(buffers.run(side, workload), 0, "a run to the list's end");
        buffers
    });
    assert!(oracle == rust && oracle == rattle, "the sides differ");
}

fn checked_times(workload: &EngineWorkload) -> [f64; 3] {
    hold_to_same_bytes(workload);
    times(SIDES, workload)
}

/// Nanoseconds of a whole run, for each side. All sides write the same buffers: how the pages of a large one lie in the cache makes more
/// difference than the sides do.
fn times<const N: usize>(sides: [Run; N], workload: &EngineWorkload) -> [f64; N] {
    let buffers = RefCell::new(Buffers::new(workload));
    let mut runs = sides.map(|side| {
        let buffers = &buffers;
        move || {
            black_box(buffers.borrow_mut().run(side, workload));
        }
    });
    best(1, runs.each_mut().map(|run| run as &mut dyn FnMut()))
}

#[derive(PartialEq)]
struct Buffers {
    journal: Vec<u8>,
    answers: Vec<u8>,
    result: Vec<u8>,
}

impl Buffers {
    fn new(workload: &EngineWorkload) -> Self {
        let [journal, answers, result] =
            [workload.journal, workload.answers, RESULT_BYTES].map(|length| vec![0xA5; length]);
        Self {
            journal,
            answers,
            result,
        }
    }

    fn run(&mut self, side: Run, workload: &EngineWorkload) -> u8 {
        side(
            black_box(&workload.commands),
            &workload.stream,
            black_box(&mut self.journal),
            &mut self.answers,
            &mut self.result,
        )
    }
}
