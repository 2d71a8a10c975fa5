//! A hazard as it stands in a SET or a sampler record: kind, first, count, eight pairs.

use crate::fields::{LIMIT, Reader, is_zero_bits, size_in_range};
use kairo_ecs_rng::{HazardRate, UnchangedHazard, Weibull};

pub const PAIRS: usize = 8;
pub const HAZARD_BYTES: usize = 138;

pub const ZERO: u8 = 0;
pub const CONSTANT: u8 = 1;
pub const GOMPERTZ: u8 = 2;
pub const PIECEWISE: u8 = 3;
/// Document 02, change 4.
pub const WEIBULL: u8 = 4;

/// 2^-40: a scale of kind 4 is not below it unless it is at most 0.
pub const SMALLEST_SCALE: f64 = 1.0 / LIMIT;

#[derive(Clone, Copy, Debug, Default, PartialEq)]
pub struct Pair {
    pub end: f64,
    pub rate: f64,
}

/// The fields as given, tested or not.
#[derive(Clone, Copy, Debug, Default, PartialEq)]
pub struct Hazard {
    pub kind: u8,
    /// Rate of Constant, eta of Gompertz, trailing rate of PiecewiseConstant, scale of Weibull.
    pub first: f64,
    pub count: u8,
    pub pairs: [Pair; PAIRS],
}

impl Hazard {
    /// Constant, Gompertz or Weibull.
    pub fn single_rate(kind: u8, first: f64) -> Self {
        Self {
            kind,
            first,
            ..Self::default()
        }
    }

    /// PiecewiseConstant with at most eight pairs (end, rate).
    pub fn piecewise(pairs: &[(f64, f64)], trailing_rate: f64) -> Self {
        let mut hazard = Self::single_rate(PIECEWISE, trailing_rate);
        hazard.count = pairs.len() as u8;
        for (pair, (end, rate)) in hazard.pairs.iter_mut().zip(pairs.iter().copied()) {
            *pair = Pair { end, rate };
        }
        hazard
    }

    /// The fields of what a clock holds. `None` for what is not carried and for more than eight
    /// pairs.
    pub fn of(rate: &HazardRate) -> Option<Self> {
        match rate {
            HazardRate::Unchanged(rate) => Self::of_unchanged(rate),
            HazardRate::Weibull(weibull) => Some(Self::single_rate(WEIBULL, weibull.scale)),
        }
    }

    fn of_unchanged(rate: &UnchangedHazard) -> Option<Self> {
        match rate {
            UnchangedHazard::Zero => Some(Self::default()),
            UnchangedHazard::Constant { rate } => Some(Self::single_rate(CONSTANT, *rate)),
            UnchangedHazard::Gompertz { eta, b: 0.0 } => Some(Self::single_rate(GOMPERTZ, *eta)),
            UnchangedHazard::PiecewiseConstant {
                intervals,
                trailing_rate,
            } if intervals.len() <= PAIRS => Some(Self::piecewise(intervals, *trailing_rate)),
            _ => None,
        }
    }

    pub fn decode(bytes: &[u8]) -> Self {
        let mut reader = Reader(bytes);
        Self {
            kind: reader.u8(),
            first: reader.f64(),
            count: reader.u8(),
            pairs: std::array::from_fn(|_| Pair {
                end: reader.f64(),
                rate: reader.f64(),
            }),
        }
    }

    pub fn encode(&self, out: &mut Vec<u8>) {
        out.push(self.kind);
        out.extend(self.first.to_le_bytes());
        out.push(self.count);
        for pair in &self.pairs {
            out.extend(pair.end.to_le_bytes());
            out.extend(pair.rate.to_le_bytes());
        }
    }

    /// The used pairs: the first count, at most 8, of kind 3.
    pub fn used(&self) -> &[Pair] {
        &self.pairs[..self.used_count()]
    }

    fn unused(&self) -> &[Pair] {
        &self.pairs[self.used_count()..]
    }

    fn used_count(&self) -> usize {
        if self.kind == PIECEWISE {
            usize::from(self.count).min(PAIRS)
        } else {
            0
        }
    }

    /// Not refused by 4: the kind is on its list, and first of kind 0 is zero.
    pub fn choice_valid(&self) -> bool {
        self.kind <= WEIBULL && (self.kind != ZERO || is_zero_bits(self.first))
    }

    /// Not refused by 5: first and the used rates are finite and at most 2^40 in size, and a scale
    /// is not too small. First of kind 0 is zero by then.
    pub fn rates_in_range(&self) -> bool {
        size_in_range(self.first)
            && !self.scale_too_small()
            && self.used().iter().all(|pair| size_in_range(pair.rate))
    }

    /// The scale of kind 4 is above 0 and below 2^-40.
    fn scale_too_small(&self) -> bool {
        self.kind == WEIBULL && self.first > 0.0 && self.first < SMALLEST_SCALE
    }

    /// Not refused by 6: count, unused pairs and used ends.
    pub fn pairs_valid(&self) -> bool {
        self.count_valid() && self.unused_pairs_zero() && self.ends_ascend()
    }

    fn count_valid(&self) -> bool {
        if self.kind == PIECEWISE {
            usize::from(self.count) <= PAIRS
        } else {
            self.count == 0
        }
    }

    fn unused_pairs_zero(&self) -> bool {
        self.unused()
            .iter()
            .all(|pair| is_zero_bits(pair.end) && is_zero_bits(pair.rate))
    }

    /// Used ends: above 0, at most 2^40, each above the one before. NaN fails.
    fn ends_ascend(&self) -> bool {
        let mut before = 0.0;
        self.used().iter().all(|pair| {
            let ascends = before < pair.end && pair.end <= LIMIT;
            before = pair.end;
            ascends
        })
    }

    /// What a clock holds, for a hazard that passes 4 and 6.
    pub fn build(&self) -> HazardRate {
        match self.weibull() {
            Some(weibull) => HazardRate::Weibull(weibull),
            None => HazardRate::Unchanged(self.build_unchanged()),
        }
    }

    /// Kind 4 of document 02, which the Rust does not have.
    pub fn weibull(&self) -> Option<Weibull> {
        (self.kind == WEIBULL).then_some(Weibull { scale: self.first })
    }

    /// The Rust's own value for a hazard of kinds 0 to 3 that passes 4 and 6.
    pub fn build_unchanged(&self) -> UnchangedHazard {
        match self.kind {
            CONSTANT => UnchangedHazard::Constant { rate: self.first },
            GOMPERTZ => UnchangedHazard::Gompertz {
                eta: self.first,
                b: 0.0,
            },
            PIECEWISE => UnchangedHazard::PiecewiseConstant {
                intervals: self.used().iter().map(|p| (p.end, p.rate)).collect(),
                trailing_rate: self.first,
            },
            _ => UnchangedHazard::Zero,
        }
    }
}
