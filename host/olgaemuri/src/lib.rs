//! Survival clocks with competing causes and an undo that gives every event back, run by the proved engine.
//!
//! An [`Engine`] stays open: it answers each [`Command`] at once and tells what it holds, clocks, causes and queue. A [`Session`] keeps
//! recorded thresholds and the whole list of commands; [`Session::run`] has them answered and returns an [`Outcome`]: every [`Answer`],
//! the applied commands, the clocks with their pending events. [`Session::undo`] and [`Session::redo`] take steps back and do them again.
//! What the engine refuses it refuses by a [`Refusal`], and nothing changes. [`Exponential`] draws thresholds from a seed;
//! [`rate_for_wait`] gives the constant rate for a breakdown on a known day.
//!
//! Sessions are read and written as text ([`SessionText`], or [`str::parse`] and [`ToString`] of a [`Session`]) and as bytes
//! ([`Session::to_bytes`], [`Session::from_bytes`]); docs/SESSION-FORMAT.md has both formats. Commands and answers are laid out as
//! in document 01, which docs/SPECIFICATION.md in the repository sets out in full.
//!
//! Nothing here panics: what can go wrong is a value. All types are `Send` and `Sync`. A call needs less than 64 KiB of stack.

#![forbid(unsafe_code)]
#![deny(missing_docs)]

mod answer;
mod batch;
mod choices;
mod clock;
mod command;
mod command_bytes;
mod container;
mod engine;
mod engine_state;
mod exponential;
mod fields;
mod hazard;
mod history;
mod input;
mod ledger;
mod logarithm;
mod outcome;
mod philox;
mod rate_for_wait;
mod refusal;
mod session;
pub mod text;
mod thresholds;

pub use answer::{ANSWER_BYTES, Answer};
pub use choices::{Policy, Tie};
pub use clock::{Cause, Clock};
pub use command::{CLOCKS, Command, Entity, NO_CAUSE};
pub use command_bytes::width;
pub use container::BytesError;
pub use engine::Engine;
pub use engine_state::{CauseState, ClockState, Request, Winner};
pub use exponential::Exponential;
pub use hazard::{Hazard, MAX_PAIRS, Pair, Piece};
pub use input::Input;
pub use ledger::{Account, Pending};
pub use outcome::{Applied, Outcome, Step};
pub use rate_for_wait::rate_for_wait;
pub use refusal::Refusal;
pub use session::Session;
pub use text::{LoadError, SessionText, TextError};
pub use thresholds::{thresholds_from_bytes, thresholds_to_bytes};
