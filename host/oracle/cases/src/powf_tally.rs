//! The Rust's own Weibull of shape 2 beside kind 4 of document 02 (change 4): how often they differ, and by how much.

use crate::floats::{SMALLEST, Style, positive, spread};
use crate::random::Random;
use kairo_ecs_rng::{UnchangedHazard, Weibull};
use reference::fields::LIMIT;
use reference::hazard::SMALLEST_SCALE;
use std::fmt::{Display, Formatter, Result};
use std::hint::black_box;

/// Scale, start and w of an inversion.
pub type Inversion = (f64, f64, f64);

/// Draws an inversion.
pub type Draw = fn(&mut Random) -> Inversion;

/// The sorts of inversions, by what is drawn: scale and w, and the start unless it is 0.
pub const SORTS: [(&str, Draw); 4] = [
    ("moderate size, from 0", |random| {
        (moderate(random), 0.0, moderate(random))
    }),
    ("moderate size, from an age", |random| {
        (moderate(random), moderate(random), moderate(random))
    }),
    ("all sizes, from 0", |random| {
        (any_scale(random), 0.0, spread(random, SMALLEST, LIMIT))
    }),
    ("all sizes, from an age", |random| {
        let start = spread(random, SMALLEST_SCALE, LIMIT);
        (
            any_scale(random),
            start,
            spread(random, SMALLEST_SCALE, LIMIT),
        )
    }),
];

/// Uniform from 0 to 1/4, 1, 4 or 32.
fn moderate(random: &mut Random) -> f64 {
    positive(random, Style::Moderate).max(SMALLEST_SCALE)
}

/// From 2^-40 to 2^40, every exponent as likely.
fn any_scale(random: &mut Random) -> f64 {
    spread(random, SMALLEST_SCALE, LIMIT)
}

/// How many values differ, and by how many bit patterns at most.
#[derive(Clone, Copy, Debug, Default)]
pub struct Differences {
    pub compared: u64,
    pub differ: u64,
    pub patterns: u64,
}

impl Differences {
    fn add(&mut self, rust: f64, model: f64) {
        let patterns = rust.to_bits().abs_diff(model.to_bits());
        self.compared += 1;
        self.differ += u64::from(patterns != 0);
        self.patterns = self.patterns.max(patterns);
    }
}

impl Display for Differences {
    fn fmt(&self, f: &mut Formatter<'_>) -> Result {
        let (differ, compared, patterns) = (self.differ, self.compared, self.patterns);
        write!(
            f,
            "{differ} of {compared} differ, at most by {patterns} patterns"
        )
    }
}

#[derive(Debug, Default)]
pub struct Tally {
    pub hazards: Differences,
    pub cumulatives: Differences,
    pub waits: Differences,
    /// By how much waits differ at most, in last places of the age at the wait's end.
    pub places: f64,
    /// Waits that one of the two has as 0.0 and the other has not.
    pub zeros: u64,
}

impl Tally {
    /// The hazards and cumulative hazards are those at the end of the wait.
    pub fn add(&mut self, (scale, start, w): Inversion) {
        let model = Weibull { scale };
        // as in a caller's record, where the compiler does not know the shape
        let rust = UnchangedHazard::Weibull {
            shape: black_box(2.0),
            scale,
        };
        let waits = (
            rust.invert_cumulative_hazard(start, w),
            model.invert_cumulative_hazard(start, w),
        );
        let (Some(theirs), Some(ours)) = waits else {
            return;
        };
        let end = start + ours;
        self.hazards.add(rust.hazard_at(end), model.hazard_at(end));
        let cumulatives = (rust.cumulative_hazard(end), model.cumulative_hazard(end));
        self.cumulatives.add(cumulatives.0, cumulatives.1);
        self.waits.add(theirs, ours);
        self.zeros += u64::from((theirs == 0.0) != (ours == 0.0));
        let place = end.next_up() - end;
        self.places = self.places.max((theirs - ours).abs() / place);
    }
}

impl Display for Tally {
    fn fmt(&self, f: &mut Formatter<'_>) -> Result {
        writeln!(f, "  hazards      {}", self.hazards)?;
        writeln!(f, "  cumulatives  {}", self.cumulatives)?;
        write!(f, "  waits        {}, ", self.waits)?;
        write!(f, "{} last places of the age at their end; ", self.places)?;
        write!(f, "{} are 0.0 on one side alone", self.zeros)
    }
}
