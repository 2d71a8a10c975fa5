//! A summary drawn: for each machine and cause a box from the first quarter of the times to the third, a line to 5 and 95 of a
//! hundred, the median and the mean.

use super::shown::{SHARES, runs};
use super::summary::{Line, Summary};
use crate::cli::svg::axis::Axis;
use crate::cli::svg::xml::{escaped, line, place, rectangle, text};
use crate::cli::wording::rounded;
use olgaemuri::text::cut;

const WIDTH: f64 = 1200.0;
const LEFT: f64 = 330.0;
const RIGHT: f64 = 50.0;
const TOP: f64 = 74.0;
const LANE: f64 = 34.0;

/// Letters that there is room for beside a lane.
const LETTERS: usize = 33;

const STYLE: &str =
    "text { font-family: 'DejaVu Sans', Verdana, 'Segoe UI', sans-serif; fill: #222222; }
.title { font-size: 18px; font-weight: bold; }
.sub { font-size: 12px; fill: #555555; }
.name { font-size: 13px; font-weight: bold; text-anchor: end; }
.count { font-size: 11px; fill: #555555; text-anchor: end; }
.time { font-size: 12px; text-anchor: middle; fill: #444444; }
.lane { fill: #f4f3ee; }
.grid { stroke: #e2e0d8; stroke-width: 1; }
.axis { stroke: #444444; stroke-width: 1.2; }
.range { stroke: #0072b2; stroke-width: 2; }
.box { fill: #a9bfd3; stroke: #0072b2; stroke-width: 1.2; }
.median { stroke: #0072b2; stroke-width: 3; }
.mean { fill: #d55e00; }
";

/// The picture of a summary.
pub fn picture(summary: &Summary, title: &str) -> String {
    let axis = Axis {
        end: end(summary),
        left: LEFT,
        width: WIDTH - LEFT - RIGHT,
    };
    let bottom = TOP + LANE * summary.lines.len() as f64;
    let lanes: String = summary
        .lines
        .values()
        .zip(0..)
        .map(|(line, place)| lane(line, &axis, TOP + LANE * (f64::from(place) + 0.5)))
        .collect();
    let grid: String = axis
        .marks()
        .into_iter()
        .map(|time| mark(time, &axis, bottom))
        .collect();
    let base = line("axis", (LEFT, bottom), (WIDTH - RIGHT, bottom));
    let [width, height] = [WIDTH, bottom + 56.0].map(place);
    let (title, runs) = (escaped(title), runs(summary.runs));
    format!(
        "<svg xmlns=\"http://www.w3.org/2000/svg\" width=\"{width}\" height=\"{height}\" \
         viewBox=\"0 0 {width} {height}\" role=\"img\">\n<title>{title}</title>\n<style>\n{STYLE}</style>\n\
         <rect width=\"{width}\" height=\"{height}\" fill=\"#fdfdfb\"/>\n\
         <text class=\"title\" x=\"24\" y=\"30\">{title}</text>\n\
         <text class=\"sub\" x=\"24\" y=\"49\">{runs}. Line: 5 to 95 of a hundred times; box: 25 to 75; \
         bar: median; dot: mean</text>\n{}{grid}{lanes}{base}{}</svg>\n",
        backs(summary.lines.len()),
        text("time", LEFT + axis.width / 2.0, bottom + 40.0, "time"),
    )
}

/// The end of the axis: nothing that is drawn lies beyond.
fn end(summary: &Summary) -> f64 {
    let drawn = summary.lines.values().map(|line| {
        let [most] = line.times.quantiles([95]);
        most.max(line.times.mean())
    });
    let end = drawn.filter(|end| end.is_finite()).fold(0.0, f64::max);
    if end > 0.0 { end } else { 1.0 }
}

/// The backgrounds of the lanes.
fn backs(lanes: usize) -> String {
    let tops = (0..lanes).map(|lane| TOP + LANE * lane as f64 + 2.0);
    tops.map(|top| rectangle("lane", 8.0, top, WIDTH - 16.0, LANE - 4.0))
        .collect()
}

fn mark(time: f64, axis: &Axis, bottom: f64) -> String {
    let x = axis.x(time);
    let grid = line("grid", (x, TOP), (x, bottom));
    grid + &line("axis", (x, bottom), (x, bottom + 5.0))
        + &text("time", x, bottom + 20.0, &rounded(time))
}

fn lane(of: &Line, axis: &Axis, y: f64) -> String {
    let times = of.times.quantiles(SHARES);
    let mean = of.times.mean();
    let [_, p5, p25, p50, p75, p95] = times.map(|time| axis.x(time));
    let words = format!("{}: {}", of.machine_name, of.cause_name);
    let shown: Vec<String> = times[1..].iter().map(|time| rounded(*time)).collect();
    let found = format!("{} in {}", of.times.count(), runs(of.runs));
    let title = format!(
        "{words}: {found}; mean {}; 5, 25, 50, 75, 95 of a hundred: {}",
        rounded(mean),
        shown.join(", ")
    );
    let [x, centre] = [axis.x(mean), y].map(place);
    let parts = [
        text("name", LEFT - 14.0, y, &cut(&words, LETTERS)),
        text("count", LEFT - 14.0, y + 13.0, &found),
        line("range", (p5, y), (p95, y)),
        rectangle("box", p25, y - 8.0, p75 - p25, 16.0),
        line("median", (p50, y - 8.0), (p50, y + 8.0)),
        format!("<circle class=\"mean\" cx=\"{x}\" cy=\"{centre}\" r=\"4\"/>\n"),
    ];
    format!(
        "<g class=\"times\"><title>{}</title>\n{}</g>\n",
        escaped(&title),
        parts.concat()
    )
}
