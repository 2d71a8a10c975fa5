//! `olgaemuri sweep`: one session over many streams of thresholds; `olgaemuri summary`: the same summary from rows.

mod bar;
mod parallel;
mod picture;
mod plan;
mod records;
mod rows;
mod run;
mod shown;
mod summary;
mod times;

use super::arguments::{Arguments, Known};
use super::files::{called, load, same_file, write, write_by};
use super::{Failure, help, terminal};
use bar::Bar;
use olgaemuri::SessionText;
use parallel::in_order;
use plan::Plan;
use rows::{HEAD, Row, read_row};
use run::{Run, Template};
use std::fs::File;
use std::io::{self, BufRead, BufReader, Write, stderr};
use summary::Summary;

pub const OPTIONS: [Known; 11] = [
    Known::valued("--streams"),
    Known::valued("--seed"),
    Known::valued("--shard"),
    Known::valued("--rows"),
    Known::flag("--csv"),
    Known::flag("--json"),
    Known::valued("--svg"),
    Known::valued("--title"),
    Known::valued("--threads"),
    Known::valued("--count"),
    Known::flag("--help"),
];

pub const SUMMARY_OPTIONS: [Known; 5] = [
    Known::flag("--csv"),
    Known::flag("--json"),
    Known::valued("--svg"),
    Known::valued("--title"),
    Known::flag("--help"),
];

pub fn sweep(arguments: &Arguments) -> Result<u8, Failure> {
    let usage = |message: String| Failure::usage(&message, help::SWEEP);
    let (plan, file) = planned(arguments).map_err(usage)?;
    let text = load(file)?;
    let summary = match arguments.value("--rows") {
        None => swept(&plan, &text, None).map_err(|error| Failure::from(error.to_string()))?,
        Some(out) => {
            let mut summary = Summary::default();
            write_by(out, |out| {
                summary = swept(&plan, &text, Some(out))?;
                Ok(())
            })?;
            summary
        }
    };
    let printed = arguments.value("--rows") != Some("-");
    present(arguments, &summary, printed)
}

/// What is told where not one session is named. One of two words is often meant as a file for the CSV.
fn not_one_session(arguments: &Arguments) -> String {
    let told = "`olgaemuri sweep` takes one SESSION, or - for standard input";
    if arguments.files.len() < 2 {
        return told.to_string();
    }
    let named: Vec<String> = arguments
        .files
        .iter()
        .map(|file| format!("`{file}`"))
        .collect();
    format!(
        "{told}, not {}; `--csv` and `--json` print the summary, and `--rows OUT` writes the breakdowns to a file",
        named.join(" and ")
    )
}

/// The runs to make and the session's file, or what is wrong with the words.
fn planned(arguments: &Arguments) -> Result<(Plan, &str), String> {
    let [file] = arguments.files.as_slice() else {
        return Err(not_one_session(arguments));
    };
    pictured(arguments)?;
    let outs = ["--rows", "--svg"].map(|name| arguments.value(name));
    if outs.iter().flatten().any(|out| same_file(file, out)) {
        return Err(
            "`--rows` or `--svg` names the session itself, which would be lost".to_string(),
        );
    }
    if outs[0].is_some() && outs[0] == outs[1] {
        return Err("`--rows` and `--svg` name one file".to_string());
    }
    Ok((Plan::new(arguments)?, file))
}

/// Whether the options of a summary go together.
fn pictured(arguments: &Arguments) -> Result<(), String> {
    if arguments.has("--csv") && arguments.has("--json") {
        return Err("`--csv` and `--json` do not go together".to_string());
    }
    if arguments.has("--title") && !arguments.has("--svg") {
        return Err("`--title` needs `--svg OUT`: it is the picture's".to_string());
    }
    Ok(())
}

/// Makes the runs, writes their rows where that is wanted, and sums up.
fn swept(plan: &Plan, text: &SessionText, mut out: Option<&mut dyn Write>) -> io::Result<Summary> {
    let (session, names) = (&text.session(), text.names());
    let template = Template {
        session,
        names,
        seed: plan.seed,
        count: plan.count(session),
        with_rows: out.is_some(),
    };
    if let Some(out) = out.as_mut().filter(|_| plan.is_first) {
        writeln!(out, "{HEAD}")?;
    }
    let mut bar = Bar::new(plan.streams.end - plan.streams.start);
    let mut summary = Summary::default();
    let take = |run: Run| {
        summary.run(run.stream, &run.refusals);
        for event in &run.breakdowns {
            let named = || [names.machine(event.machine), names.cause(event.cause)];
            summary.breakdown((event.machine, event.cause), event.time, named);
        }
        bar.step();
        out.as_mut()
            .map_or(Ok(()), |out| out.write_all(run.rows.as_bytes()))
    };
    in_order(
        plan.streams.clone(),
        plan.threads,
        |stream| template.run(stream),
        take,
    )?;
    Ok(summary)
}

pub fn summary(arguments: &Arguments) -> Result<u8, Failure> {
    let usage = |message: String| Failure::usage(&message, help::SUMMARY);
    pictured(arguments).map_err(usage)?;
    if arguments.files.is_empty() {
        return Err(usage(
            "`olgaemuri summary` takes files of rows, or -".to_string(),
        ));
    }
    let outs = arguments.value("--svg");
    if arguments
        .files
        .iter()
        .any(|file| outs.is_some_and(|out| same_file(file, out)))
    {
        return Err(usage(
            "`--svg` names a file of rows, which would be lost".to_string(),
        ));
    }
    let mut sums = Sums::default();
    for file in &arguments.files {
        sums.read(file)?;
    }
    present(arguments, &sums.summary, true)
}

/// Rows that are summed up, file after file.
#[derive(Default)]
struct Sums {
    summary: Summary,
    /// The stream of the last row.
    stream: Option<u64>,
}

impl Sums {
    fn read(&mut self, file: &str) -> Result<(), String> {
        let cannot = |error: io::Error| format!("cannot read {}: {error}", called(file));
        let mut rows: Box<dyn BufRead> = if file == "-" {
            Box::new(io::stdin().lock())
        } else {
            Box::new(BufReader::new(File::open(file).map_err(cannot)?))
        };
        let mut line = 1;
        while let Some((cells, lines)) = records::next_record(&mut rows).map_err(cannot)? {
            if line > 1 || cells.join(",") != HEAD {
                let row = read_row(&cells).and_then(|row| self.enter(row));
                row.map_err(|message| format!("{}:{line}: {message}", called(file)))?;
            }
            line += lines;
        }
        Ok(())
    }

    fn enter(&mut self, row: Row) -> Result<(), String> {
        if self.stream != Some(row.stream) {
            self.next_stream(row.stream)?;
            self.summary.run(row.stream, &row.refusals);
        }
        if let Some(breakdown) = row.breakdown {
            let names = || breakdown.names;
            self.summary.breakdown(breakdown.key, breakdown.time, names);
        }
        Ok(())
    }

    /// Streams follow each other without a gap.
    fn next_stream(&mut self, stream: u64) -> Result<(), String> {
        let expected = self.stream.and_then(|last| last.checked_add(1));
        if self.stream.is_some() && expected != Some(stream) {
            let expected = expected.map_or_else(|| "none".to_string(), |next| next.to_string());
            return Err(format!(
                "expected stream {expected}, not {stream}: give every part once, in the order of the parts"
            ));
        }
        self.stream = Some(stream);
        Ok(())
    }
}

/// Prints and draws a summary, and tells where thresholds have run out.
fn present(arguments: &Arguments, summary: &Summary, printed: bool) -> Result<u8, Failure> {
    let picture_out = arguments.value("--svg");
    if printed && picture_out != Some("-") {
        let text = if arguments.has("--csv") {
            shown::summary_csv(summary)
        } else if arguments.has("--json") {
            shown::summary_json(summary)
        } else {
            shown::summary_text(summary, terminal::width())
        };
        write("-", text.as_bytes())?;
    }
    if let Some(out) = picture_out {
        let title = arguments.value("--title").unwrap_or("Times of breakdowns");
        write(out, picture::picture(summary, title).as_bytes())?;
    }
    if summary.ran_out() > 0 {
        let (runs, all) = (summary.ran_out(), summary.runs);
        // a warning that cannot be written is no failure
        let _ = writeln!(
            stderr(),
            "In {runs} of {all} runs the thresholds ran out: commands were refused by 15."
        );
    }
    Ok(0)
}
