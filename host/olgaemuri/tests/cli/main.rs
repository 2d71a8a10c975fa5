//! The command line, run as a program.

mod compare;
mod convert;
mod curve;
mod documents;
mod examples;
mod interactive;
mod json;
mod limits;
mod options;
mod pictures;
mod program;
mod rate;
mod shown;
mod streams;
mod undo_and_redo;
mod usage;
mod xml;
