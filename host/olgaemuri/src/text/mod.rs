//! Sessions in the text format of docs/SESSION-FORMAT.md, read and written.
//!
//! A [`SessionText`] keeps a text whole, with its comments and names; a [`Reader`] reads one line after
//! another, for programs in which a session is typed.

mod commands;
mod fault;
mod letter_width;
mod line;
mod load;
mod names;
mod number;
mod operands;
mod parse;
mod retain;
mod session;
mod suggest;
mod visible;
mod words;
mod write;

#[cfg(test)]
mod bad_lines;
#[cfg(test)]
mod round_trip;

pub use fault::{Fault, TextError};
pub use line::{Item, Line};
pub use load::{LoadError, Source};
pub use names::{Named, Names};
pub use number::{float_text, parse_float};
pub use parse::{Reader, line_words};
pub use session::SessionText;
pub use suggest::{closest, hint, hint_or};
pub use visible::{columns, cut, is_obeyed, visible};

pub(crate) use parse::MAX_JOURNAL;
