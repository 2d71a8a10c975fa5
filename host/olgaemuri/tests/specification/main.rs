//! docs/SPECIFICATION.md says what the code does: its tables are held to this crate, to the engine's sources and to the engine, run.

mod changes;
mod commands;
#[path = "../common/mod.rs"]
mod common;
mod document;
mod headings;
mod lent;
mod limits;
mod order;
mod pieces;
mod rates;
mod records;
mod refusals;
mod rows;
mod wear;
