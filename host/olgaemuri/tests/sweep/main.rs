//! Thresholds from a seed and sweeps, run as a program.

#[allow(dead_code)]
#[path = "../cli/json.rs"]
mod json;
#[allow(dead_code)]
#[path = "../cli/program.rs"]
mod program;
#[allow(dead_code)]
#[path = "../cli/xml.rs"]
mod xml;

mod document;
mod parts;
mod summaries;
mod thresholds;
mod words;
