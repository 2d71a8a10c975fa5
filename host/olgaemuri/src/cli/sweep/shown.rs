//! A summary as table, CSV and JSON.

use super::summary::{Line, Summary};
use crate::cli::csv::quoted;
use crate::cli::json::{number, object, string};
use crate::cli::table::{Column, aligned};
use crate::cli::wording::{counted, meaning};
use olgaemuri::text::{columns, float_text};
use olgaemuri::{NO_CAUSE, Refusal};

/// The quantiles that are shown, of a hundred; the first is the least time.
pub const SHARES: [u64; 6] = [0, 5, 25, 50, 75, 95];

const TIMES: [&str; 8] = ["mean", "min", "p5", "p25", "p50", "p75", "p95", "max"];

/// Mean, least, quantiles, greatest.
fn times(line: &Line) -> [f64; 8] {
    let [least, p5, p25, p50, p75, p95] = line.times.quantiles(SHARES);
    let (mean, most) = (line.times.mean(), line.times.most());
    [mean, least, p5, p25, p50, p75, p95, most]
}

const COLUMNS: [Column; 12] = [
    Column::Name("machine"),
    Column::Name("cause"),
    Column::Right("count"),
    Column::Right("runs"),
    Column::Right(TIMES[0]),
    Column::Right(TIMES[1]),
    Column::Right(TIMES[2]),
    Column::Right(TIMES[3]),
    Column::Right(TIMES[4]),
    Column::Right(TIMES[5]),
    Column::Right(TIMES[6]),
    Column::Right(TIMES[7]),
];

/// Columns that are left out where there is little room: min, p25, p75, max.
const SPARED: [usize; 4] = [5, 7, 9, 11];

/// In at most so many columns of a terminal, where that is said and as far as it goes.
pub fn summary_text(summary: &Summary, most: Option<usize>) -> String {
    let rows: Vec<Vec<String>> = summary.lines.values().map(cells).collect();
    let table = if rows.is_empty() {
        "No breakdowns.\n".to_string()
    } else {
        table(&rows, most)
    };
    format!("{}\n{table}{}", head(summary), refused(summary))
}

fn cells(line: &Line) -> Vec<String> {
    let names = [line.machine_name.clone(), line.cause_name.clone()];
    let counts = [line.times.count(), line.runs].map(|count| count.to_string());
    let times = times(line).map(short);
    names.into_iter().chain(counts).chain(times).collect()
}

fn table(rows: &[Vec<String>], most: Option<usize>) -> String {
    let whole = aligned(&COLUMNS, rows, None);
    let width = whole.lines().map(columns).max().unwrap_or(0);
    if most.is_none_or(|most| width <= most) {
        return whole;
    }
    let kept: Vec<usize> = (0..COLUMNS.len())
        .filter(|place| !SPARED.contains(place))
        .collect();
    let heads: Vec<Column> = kept.iter().map(|place| COLUMNS[*place]).collect();
    let cells = |row: &Vec<String>| kept.iter().map(|place| row[*place].clone()).collect();
    let rows: Vec<Vec<String>> = rows.iter().map(cells).collect();
    aligned(&heads, &rows, most)
}

/// A time with five digits, or the digits before its point.
fn short(time: f64) -> String {
    if time != 0.0 && !(1e-3..1e12).contains(&time) {
        return format!("{time:.2e}");
    }
    let whole = (time as u64).to_string().len();
    let text = format!("{time:.0$}", 5usize.saturating_sub(whole));
    if text.contains('.') {
        text.trim_end_matches('0').trim_end_matches('.').to_string()
    } else {
        text
    }
}

fn head(summary: &Summary) -> String {
    let first = summary.first;
    match summary.runs {
        0 => "No runs.\n".to_string(),
        1 => format!("1 run, stream {first}.\n"),
        count => format!(
            "{}, streams {first} to {}.\n",
            runs(count),
            first + (count - 1)
        ),
    }
}

/// So many runs.
pub fn runs(count: u64) -> String {
    counted(usize::try_from(count).unwrap_or(usize::MAX), "run")
}

/// What was refused, a line for each number.
fn refused(summary: &Summary) -> String {
    let line = |(number, (commands, in_runs)): (&u8, &(u64, u64))| {
        let why = Refusal::from_number(*number).map_or_else(String::new, meaning);
        let in_runs = runs(*in_runs);
        format!("  by {number}, in {in_runs}: {commands} ({why})\n")
    };
    let lines: String = summary.refusals.iter().map(line).collect();
    if lines.is_empty() {
        lines
    } else {
        format!("\nRefused commands:\n{lines}")
    }
}

pub fn summary_csv(summary: &Summary) -> String {
    let head = "machine,machine_name,cause,cause_name,censored,count,runs,";
    let line = |((machine, cause), line): (&(u8, u32), &Line)| {
        let (machine_name, cause_name) = (quoted(&line.machine_name), quoted(&line.cause_name));
        let (count, runs, censored) = (line.times.count(), line.runs, u8::from(*cause == NO_CAUSE));
        let times = times(line).map(float_text).join(",");
        format!("{machine},{machine_name},{cause},{cause_name},{censored},{count},{runs},{times}\n")
    };
    let lines = summary.lines.iter().map(line);
    let head = format!("{head}{}\n", TIMES.join(","));
    std::iter::once(head).chain(lines).collect()
}

pub fn summary_json(summary: &Summary) -> String {
    let refusal = |(number, (commands, runs)): (&u8, &(u64, u64))| {
        let counts = [
            ("number", u64::from(*number)),
            ("commands", *commands),
            ("runs", *runs),
        ];
        object(&counts.map(|(name, count)| (name, count.to_string())))
    };
    let refusals: Vec<String> = summary.refusals.iter().map(refusal).collect();
    let lines: Vec<String> = summary.lines.iter().map(line_object).collect();
    format!(
        "{{\n  \"first_stream\": {},\n  \"runs\": {},\n  \"refusals\": {},\n  \"summary\": {}\n}}\n",
        summary.first,
        summary.runs,
        array(&refusals),
        array(&lines)
    )
}

fn line_object(((machine, cause), line): (&(u8, u32), &Line)) -> String {
    let mut fields = vec![
        ("machine", machine.to_string()),
        ("machine_name", string(&line.machine_name)),
        ("cause", cause.to_string()),
        ("cause_name", string(&line.cause_name)),
        ("censored", (*cause == NO_CAUSE).to_string()),
        ("count", line.times.count().to_string()),
        ("runs", line.runs.to_string()),
    ];
    fields.extend(TIMES.into_iter().zip(times(line).map(number)));
    object(&fields)
}

/// An array with an element on each line.
fn array(elements: &[String]) -> String {
    if elements.is_empty() {
        return "[]".to_string();
    }
    format!("[\n    {}\n  ]", elements.join(",\n    "))
}

#[cfg(test)]
mod tests {
    use super::*;

    #[test]
    fn times_are_short() {
        for (time, text) in [
            (0.0, "0"),
            (160.0, "160"),
            (159.98765, "159.99"),
            (65.953142, "65.953"),
            (0.0026123, "0.0026"),
            (1.5, "1.5"),
            (1234567.8, "1234568"),
            (1.23456789e-7, "1.23e-7"),
        ] {
            assert_eq!(short(time), text);
        }
    }

    #[test]
    fn a_narrow_table_has_fewer_columns() {
        let mut summary = Summary::default();
        summary.run(0, &Vec::new());
        let names = || ["a machine", "a cause"].map(str::to_string);
        summary.breakdown((0, 1), 123.456, names);
        let wide = summary_text(&summary, None);
        assert_eq!(summary_text(&summary, Some(120)), wide);
        let narrow = summary_text(&summary, Some(70));
        let head = "machine    cause    count  runs    mean      p5     p50     p95";
        assert!(narrow.contains(head), "{narrow}");
    }
}
