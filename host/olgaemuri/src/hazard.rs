//! Hazards: how fast a cause uses up its threshold over time (document 01, kinds 0 to 3 of SET; kind 4 is change 4 of document 02).

use crate::refusal::Refusal;

/// The most pairs that a hazard may have.
pub const MAX_PAIRS: usize = 8;

/// One piece of a [`Hazard::PiecewiseConstant`].
#[derive(Clone, Copy, Debug, Default, PartialEq)]
pub struct Pair {
    /// Until when the rate holds, counted from the start of the interval. A time equal to it uses the next rate.
    pub end: f64,
    /// The rate.
    pub rate: f64,
}

/// A piece of the rate curve of a [`Hazard::PiecewiseConstant`]. A breakdown that just uses it up falls in it and not in the next.
/// Times are rounded, so that of a breakdown may lie just past the end of its piece.
#[derive(Clone, Copy, Debug, PartialEq)]
#[non_exhaustive]
pub struct Piece {
    /// Its number, as [`Answer::piece`](crate::Answer::piece) has it: pairs from 0, then the rate after the last.
    pub number: u8,
    /// The age at which it begins, counted from the RESCHEDULE or RESUME that schedules the event.
    pub from: f64,
    /// The age at which it ends; none for the rate after the last pair.
    pub to: Option<f64>,
    /// Its rate, which is not below 0.
    pub rate: f64,
}

/// The hazard of one cause. A rate that is negative counts as 0.
#[derive(Clone, Debug, PartialEq)]
#[non_exhaustive]
pub enum Hazard {
    /// No event ever comes from this cause.
    Zero,
    /// The same rate at all times.
    Constant(f64),
    /// Gompertz with b = 0, which is the constant rate eta.
    Gompertz(f64),
    /// Rates by pieces, and one after the last piece.
    PiecewiseConstant {
        /// The pieces by ascending end, at most [`MAX_PAIRS`]. With more the command is refused by 6 (its count says how many,
        /// up to 255; only the first eight have a place in the bytes).
        pairs: Vec<Pair>,
        /// The rate after the last piece.
        trailing: f64,
    },
    /// Weibull with shape 2 and this scale: wear whose hazard is proportional to the age, which counts from the start of the
    /// interval. A threshold of 1 is used up at the age `scale`, one of 4 at twice that age. A scale at most 0 means
    /// [`Hazard::Zero`]; one above 0 is refused by 5 where it is below 2^-40.
    Weibull(f64),
}

impl Hazard {
    /// The byte that names the kind.
    #[must_use]
    pub fn kind(&self) -> u8 {
        match self {
            Self::Zero => 0,
            Self::Constant(_) => 1,
            Self::Gompertz(_) => 2,
            Self::PiecewiseConstant { .. } => 3,
            Self::Weibull(_) => 4,
        }
    }

    /// The field `first`: the rate, eta, the trailing rate or the scale; +0.0 for Zero.
    #[must_use]
    pub fn first(&self) -> f64 {
        match self {
            Self::Zero => 0.0,
            Self::Constant(first)
            | Self::Gompertz(first)
            | Self::PiecewiseConstant {
                trailing: first, ..
            }
            | Self::Weibull(first) => *first,
        }
    }

    /// The pieces; none but for PiecewiseConstant.
    #[must_use]
    pub fn pairs(&self) -> &[Pair] {
        match self {
            Self::PiecewiseConstant { pairs, .. } => pairs,
            Self::Zero | Self::Constant(_) | Self::Gompertz(_) | Self::Weibull(_) => &[],
        }
    }

    /// The pieces of a PiecewiseConstant, one for each pair and one for the rate after the last; none for another kind.
    pub fn pieces(&self) -> impl Iterator<Item = Piece> {
        let trailing = match self {
            Self::PiecewiseConstant { trailing, .. } => Some((None, *trailing)),
            Self::Zero | Self::Constant(_) | Self::Gompertz(_) | Self::Weibull(_) => None,
        };
        let pairs = self.pairs().iter().map(|pair| (Some(pair.end), pair.rate));
        let begins = std::iter::once(0.0).chain(self.pairs().iter().map(|pair| pair.end));
        let pieces = (0..=u8::MAX).zip(begins).zip(pairs.chain(trailing));
        pieces.map(|((number, from), (to, rate))| Piece {
            number,
            from,
            to,
            rate: if rate > 0.0 { rate } else { 0.0 },
        })
    }

    /// The hazard with these fields. Refuses by 4 or 6 what no hazard of this type has: an unknown kind, a `first` of Zero that
    /// is not zero bits, a count above eight, pairs that are not zero bits where they are unused.
    pub(crate) fn from_fields(
        kind: u8,
        first: f64,
        count: u8,
        pairs: &[Pair; MAX_PAIRS],
    ) -> Result<Self, Refusal> {
        let hazard = match kind {
            0 if first.to_bits() == 0 => Self::Zero,
            1 => Self::Constant(first),
            2 => Self::Gompertz(first),
            3 => Self::PiecewiseConstant {
                pairs: pairs.iter().take(usize::from(count)).copied().collect(),
                trailing: first,
            },
            4 => Self::Weibull(first),
            _ => return Err(Refusal::InvalidChoice),
        };
        let used = hazard.pairs().len();
        let is_blank = |pair: &Pair| pair.end.to_bits() == 0 && pair.rate.to_bits() == 0;
        if usize::from(count) != used || !pairs[used..].iter().all(is_blank) {
            return Err(Refusal::InvalidPairs);
        }
        Ok(hazard)
    }
}
