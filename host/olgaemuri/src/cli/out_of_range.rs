//! Which operands refusal 5 is about. The engine only says the number; this tells it to a person.

use olgaemuri::text::float_text;
use olgaemuri::{Command, Hazard};

/// 2^40.
const LIMIT: f64 = 1_099_511_627_776.0;

const SCALE: &str = "a scale is finite and at most 2^40 in size";

/// The operands of a command that are out of their range and what the range is; nothing where all are within.
pub fn out_of_range(command: &Command) -> String {
    let times = bad_times(command);
    let minus_zero = times.iter().any(|time| time.ends_with("=-0"));
    let time = if minus_zero {
        "a time is from 0 to 2^40, and -0 is below 0"
    } else {
        "a time is from 0 to 2^40"
    };
    let parts = [
        (bad_scale(command), SCALE),
        (times, time),
        (
            bad_rates(command),
            "a rate is finite and at most 2^40 in size",
        ),
        (bad_wear(command, |scale| !is_rate(scale)), SCALE),
        (
            bad_wear(command, |scale| 0.0 < scale && scale < 1.0 / LIMIT),
            "a weibull scale above 0 is at least 2^-40",
        ),
    ];
    let told = parts.iter().filter(|(bad, _)| !bad.is_empty());
    let told = told.map(|(bad, range)| format!("{}: {range}", bad.join(", ")));
    told.collect::<Vec<String>>().join("; ")
}

fn is_time(value: f64) -> bool {
    value.is_sign_positive() && value <= LIMIT
}

fn is_rate(value: f64) -> bool {
    value.abs() <= LIMIT
}

fn bad_times(command: &Command) -> Vec<String> {
    let censor = match command {
        Command::Reschedule { censor, .. } | Command::Resume { censor, .. } => *censor,
        _ => None,
    };
    let times = [("now", command.now()), ("censor", censor)];
    let times = times
        .into_iter()
        .filter_map(|(name, time)| Some((name, time?)));
    let bad = times.filter(|(_, time)| !is_time(*time));
    bad.map(|(name, time)| format!("{name}={}", float_text(time)))
        .collect()
}

fn bad_scale(command: &Command) -> Vec<String> {
    match command {
        Command::Create { scale, .. } if !is_rate(*scale) => {
            vec![format!("scale={}", float_text(*scale))]
        }
        _ => Vec::new(),
    }
}

/// The scale of a weibull hazard, where it is bad in this way.
fn bad_wear(command: &Command, is_bad: impl Fn(f64) -> bool) -> Vec<String> {
    match command {
        Command::Set {
            hazard: Hazard::Weibull(scale),
            ..
        } if is_bad(*scale) => vec![format!("scale={}", float_text(*scale))],
        _ => Vec::new(),
    }
}

fn bad_rates(command: &Command) -> Vec<String> {
    let Command::Set { hazard, .. } = command else {
        return Vec::new();
    };
    let name = match hazard {
        Hazard::Constant(_) => "rate",
        Hazard::Gompertz(_) => "eta",
        // it has no rate
        Hazard::Weibull(_) => return Vec::new(),
        _ => "then",
    };
    let pairs = hazard.pairs().iter().filter(|pair| !is_rate(pair.rate));
    let pairs = pairs.map(|pair| {
        let (rate, end) = (float_text(pair.rate), float_text(pair.end));
        format!("rate {rate} up to {end}")
    });
    let first = Some(hazard.first()).filter(|first| !is_rate(*first));
    let first = first.map(|first| format!("{name}={}", float_text(first)));
    pairs.chain(first).collect()
}
