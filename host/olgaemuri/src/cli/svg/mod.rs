//! A timeline for each machine, as a scalable picture. It shows what is in force after the whole list: undone commands have left
//! no trace.

pub mod axis;
mod legend;
pub mod marks;
mod spans;
mod timeline;
pub mod xml;

use super::report::Report;
use super::wording::counted;
use std::io::{self, Write};
use timeline::{Timeline, WIDTH};
use xml::{escaped, place};

const STYLE: &str = include_str!("style.css");

/// The pattern of paused spans.
const HATCH: &str = "<pattern id=\"hatch\" width=\"6\" height=\"6\" patternUnits=\"userSpaceOnUse\" \
    patternTransform=\"rotate(45)\"><rect width=\"6\" height=\"6\" fill=\"#ffffff\"/>\
    <rect width=\"2\" height=\"6\" fill=\"#9a9a9a\"/></pattern>";

/// Writes the picture of a report, part after part.
pub fn write_picture(report: &Report, title: &str, out: &mut dyn Write) -> io::Result<()> {
    let timeline = Timeline::new(report);
    let (mut body, height) = timeline.drawn();
    let (width, height, title) = (place(WIDTH), place(height), escaped(title));
    let summary = summary(report);
    write!(
        out,
        "<svg xmlns=\"http://www.w3.org/2000/svg\" width=\"{width}\" height=\"{height}\" \
         viewBox=\"0 0 {width} {height}\" role=\"img\">\n\
         <title>{title}</title>\n<style>\n{STYLE}</style>\n<defs>{HATCH}</defs>\n\
         <rect width=\"{width}\" height=\"{height}\" fill=\"#fdfdfb\"/>\n\
         <text class=\"title\" x=\"24\" y=\"30\">{title}</text>\n\
         <text class=\"sub\" x=\"24\" y=\"49\">{summary}</text>\n"
    )?;
    body.try_for_each(|part| out.write_all(part.as_bytes()))?;
    writeln!(out, "</svg>")
}

fn summary(report: &Report) -> String {
    let (applied, draws) = (report.outcome().applied().len(), report.session.draws());
    let (applied, draws) = (counted(applied, "command"), counted(draws, "threshold"));
    let undone = report.undone();
    format!("{applied} in force, {undone} taken back and not drawn; {draws} drawn")
}
