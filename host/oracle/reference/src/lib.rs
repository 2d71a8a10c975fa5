//! The calls of document 01 over the unchanged Rust: refusals, journal, undo and batch run are
//! written from the paper, values come from the Rust. The rate for a wait, the values of hazard
//! kind 4 and the pieces of a curve are written from document 02 alone.

#![forbid(unsafe_code)]

pub mod answer;
pub mod batch;
pub mod choices;
pub mod clock;
pub mod command;
pub mod command_fields;
pub mod dump;
pub mod evaluation;
pub mod execute;
pub mod fields;
pub mod hazard;
pub mod ledger;
pub mod piece;
pub mod rate_for_wait;
pub mod record;
pub mod refusal;
pub mod request;
pub mod sampler;
pub mod state;
pub mod undo;
pub mod unvalidated;
pub mod validation;
