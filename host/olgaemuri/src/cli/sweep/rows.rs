//! A sweep's rows: the breakdowns of each run as CSV. A run without any has a row for itself, so that every run is seen.

use super::summary::Refusals;
use crate::cli::csv::{event_cells, piece_cell, quoted};
use crate::cli::events::Event;
use olgaemuri::text::Names;

pub const HEAD: &str = "stream,machine,machine_name,cause,cause_name,censored,scheduled_at,time,ticks,state,refusals,piece";

/// Cells of a row.
pub const CELLS: usize = 12;

/// The rows of a run.
pub fn rows(stream: u64, breakdowns: &[Event], refusals: &Refusals, names: &Names) -> String {
    let refusals = refusals_cell(refusals);
    if breakdowns.is_empty() {
        return format!("{stream}{}{refusals},\n", ",".repeat(CELLS - 2));
    }
    let row = |event: &Event| {
        let cells = event_cells(stream, event, names).map(|cell| quoted(&cell));
        let piece = piece_cell(event.piece());
        format!("{},{refusals},{piece}\n", cells.join(","))
    };
    breakdowns.iter().map(row).collect()
}

/// `9:1 15:2`: one command refused by 9, two by 15.
fn refusals_cell(refusals: &Refusals) -> String {
    let counts: Vec<String> = refusals
        .iter()
        .map(|(number, times)| format!("{number}:{times}"))
        .collect();
    counts.join(" ")
}

/// A row that was read.
#[derive(Debug, PartialEq)]
pub struct Row {
    pub stream: u64,
    pub breakdown: Option<Breakdown>,
    pub refusals: Refusals,
}

#[derive(Debug, PartialEq)]
pub struct Breakdown {
    pub key: (u8, u32),
    pub names: [String; 2],
    pub time: f64,
}

/// Reads the cells of a row, or says which of them is wrong.
pub fn read_row(cells: &[String]) -> Result<Row, String> {
    let [
        stream,
        machine,
        machine_name,
        cause,
        cause_name,
        ..,
        time,
        _,
        _,
        refusals,
        piece,
    ] = cells
    else {
        return Err(format!("expected {CELLS} cells, as in `{HEAD}`"));
    };
    if cells.len() != CELLS {
        return Err(format!("expected {CELLS} cells, not {}", cells.len()));
    }
    if !piece.is_empty() {
        read::<u8>("piece", piece)?;
    }
    let breakdown = if machine.is_empty() {
        None
    } else {
        Some(Breakdown {
            key: (read("machine", machine)?, read("cause", cause)?),
            names: [machine_name.clone(), cause_name.clone()],
            time: read_time(time)?,
        })
    };
    Ok(Row {
        stream: read("stream", stream)?,
        breakdown,
        refusals: read_refusals(refusals)?,
    })
}

fn read<T: std::str::FromStr>(what: &str, cell: &str) -> Result<T, String> {
    let number = cell.parse();
    number.map_err(|_| format!("expected the number of a {what}, not `{cell}`"))
}

fn read_time(cell: &str) -> Result<f64, String> {
    let time = cell
        .parse()
        .ok()
        .filter(|time| (0.0..=f64::MAX).contains(time));
    time.ok_or_else(|| format!("expected a time, not `{cell}`"))
}

fn read_refusals(cell: &str) -> Result<Refusals, String> {
    let count = |count: &str| {
        let (number, times) = count.split_once(':')?;
        Some((number.parse().ok()?, times.parse().ok()?))
    };
    let counts: Option<Refusals> = cell
        .split(' ')
        .filter(|count| !count.is_empty())
        .map(count)
        .collect();
    counts.ok_or_else(|| format!("expected refusals such as `9:1 15:2`, not `{cell}`"))
}

#[cfg(test)]
mod tests {
    use super::*;
    use crate::cli::events::Fate;

    fn event() -> Event {
        Event {
            machine: 3,
            cause: 7,
            censored: false,
            scheduled_at: 1.0,
            time: 0.1 + 0.2,
            ticks: 12,
            fate: Fate::Delivered,
            priority: 0,
            place: None,
            struck: None,
        }
    }

    fn cells(row: &str) -> Vec<String> {
        row.trim_end().split(',').map(str::to_string).collect()
    }

    #[test]
    fn rows_come_back() {
        let written = rows(
            5,
            &[event(), event()],
            &vec![(9, 1), (15, 2)],
            &Names::default(),
        );
        let row = "5,3,machine 3,7,cause 7,0,1,0.30000000000000004,12,delivered,9:1 15:2,0\n";
        assert_eq!(written, row.repeat(2));
        let breakdown = Breakdown {
            key: (3, 7),
            names: ["machine 3", "cause 7"].map(str::to_string),
            time: 0.1 + 0.2,
        };
        let read = Row {
            stream: 5,
            breakdown: Some(breakdown),
            refusals: vec![(9, 1), (15, 2)],
        };
        assert_eq!(read_row(&cells(row)), Ok(read));
    }

    #[test]
    fn a_run_without_breakdowns_has_a_row() {
        let written = rows(5, &[], &Refusals::new(), &Names::default());
        assert_eq!(cells(&written).len(), CELLS);
        let read = read_row(&cells(&written)).unwrap();
        assert_eq!(
            (read.stream, read.breakdown, read.refusals.len()),
            (5, None, 0)
        );
    }

    #[test]
    fn wrong_cells_are_told() {
        for (row, told) in [
            ("5,3", "expected 12 cells, as in `stream,machine"),
            ("5,3,a,7,b,0,1,2,12,delivered,", "expected 12 cells, not 11"),
            (
                "x,3,a,7,b,0,1,2,12,delivered,,",
                "expected the number of a stream, not `x`",
            ),
            (
                "5,300,a,7,b,0,1,2,12,delivered,,",
                "expected the number of a machine, not `300`",
            ),
            (
                "5,3,a,7,b,0,1,-2,12,delivered,,",
                "expected a time, not `-2`",
            ),
            (
                "5,3,a,7,b,0,1,NaN,12,delivered,,",
                "expected a time, not `NaN`",
            ),
            (
                "5,3,a,7,b,0,1,2,12,delivered,15,",
                "expected refusals such as",
            ),
            (
                "5,3,a,7,b,0,1,2,12,delivered,,-1",
                "expected the number of a piece, not `-1`",
            ),
        ] {
            let error = read_row(&cells(row)).unwrap_err();
            assert!(error.starts_with(told), "{row}: {error}");
        }
    }
}
