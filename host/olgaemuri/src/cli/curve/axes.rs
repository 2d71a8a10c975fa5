//! From ages and rates to places in a picture of a curve.

use super::curves::{Band, Curve};
use crate::cli::svg::axis::Axis;
use olgaemuri::Hazard;

/// A piece has at least so much room, for its number and its rate.
const LEAST: f64 = 100.0;

pub struct Axes {
    /// Where each piece begins and ends, in ages and in the picture.
    spans: Vec<Span>,
    /// Whether ages are to scale over all pieces, not only within each.
    pub is_to_scale: bool,
    highest: f64,
    top: f64,
    height: f64,
}

#[derive(Clone, Copy)]
struct Span {
    from: f64,
    to: f64,
    left: f64,
    right: f64,
}

/// The part of the picture that a curve is drawn in.
#[derive(Clone, Copy)]
pub struct Frame {
    pub left: f64,
    pub width: f64,
    pub top: f64,
    pub height: f64,
}

impl Axes {
    pub fn new(curve: &Curve, frame: Frame) -> Self {
        let end = end_age(curve);
        let lengths: Vec<f64> = curve
            .bands
            .iter()
            .map(|band| band.to.unwrap_or(end) - band.from)
            .collect();
        let (widths, is_to_scale) = widths(&lengths, end, frame.width);
        let mut left = frame.left;
        let spans = curve.bands.iter().zip(widths).map(|(band, width)| {
            let right = left + width;
            Span {
                from: band.from,
                to: band.to.unwrap_or(end),
                left: std::mem::replace(&mut left, right),
                right,
            }
        });
        let spans: Vec<Span> = spans.collect();
        let rates = curve.bands.iter().zip(&spans);
        let rates = rates.map(|(band, span)| curve.rate(band, span.to));
        let highest = rates.fold(0.0, f64::max);
        Self {
            spans,
            is_to_scale,
            highest: if highest > 0.0 { 1.25 * highest } else { 1.0 },
            top: frame.top,
            height: frame.height,
        }
    }

    /// Where a piece begins and ends in the picture.
    pub fn borders(&self, band: &Band) -> (f64, f64) {
        let span = self.span(band.number);
        (span.left, span.right)
    }

    /// The ages at which a piece begins and ends in the picture.
    pub fn ages(&self, band: &Band) -> (f64, f64) {
        let span = self.span(band.number);
        (span.from, span.to)
    }

    /// The place of an age of a piece. Ages are rounded, the more the later the session's time, and so may lie before the piece's
    /// beginning or past its end; such a breakdown stands at that border.
    pub fn x(&self, piece: u8, age: f64) -> f64 {
        let span = self.span(piece);
        let share = (age.clamp(span.from, span.to) - span.from) / (span.to - span.from);
        span.left + (span.right - span.left) * share
    }

    pub fn y(&self, rate: f64) -> f64 {
        self.top + self.height * (1.0 - rate / self.highest)
    }

    /// Round rates along the height.
    pub fn rate_marks(&self) -> Vec<f64> {
        let axis = Axis {
            end: self.highest,
            left: 0.0,
            width: self.height,
        };
        axis.marks()
    }

    fn span(&self, piece: u8) -> Span {
        self.spans[usize::from(piece).min(self.spans.len() - 1)]
    }
}

/// The end of the picture: somewhat after the last end of a piece, and after the last breakdown.
fn end_age(curve: &Curve) -> f64 {
    let last = curve.bands.iter().filter_map(|band| band.to);
    let last = last.fold(0.0, f64::max);
    let farthest = curve.strikes.iter().map(|strike| strike.age);
    let farthest = farthest.fold(0.0, f64::max);
    let end = (1.25 * last).max(1.1 * farthest).min(f64::MAX);
    match &curve.hazard {
        _ if end > 0.0 => end,
        Hazard::Constant(rate) | Hazard::Gompertz(rate) if *rate > 0.0 => {
            (2.0 / rate).min(f64::MAX)
        }
        Hazard::Weibull(scale) if *scale > 0.0 => 2.0 * scale,
        _ => 1.0,
    }
}

/// The widths of pieces of these lengths, and whether they are to scale: they are where each has room.
fn widths(lengths: &[f64], end: f64, width: f64) -> (Vec<f64>, bool) {
    let shares = lengths.iter().map(|length| length / end);
    let to_scale: Vec<f64> = shares.clone().map(|share| width * share).collect();
    if to_scale.iter().all(|width| *width >= LEAST) {
        return (to_scale, true);
    }
    let rest = width - LEAST * lengths.len() as f64;
    (shares.map(|share| LEAST + rest * share).collect(), false)
}

#[cfg(test)]
mod tests {
    use super::*;

    #[test]
    fn pieces_with_room_are_to_scale() {
        let (widths, is_to_scale) = widths(&[20.0, 80.0, 100.0], 200.0, 1000.0);
        assert_eq!((widths, is_to_scale), (vec![100.0, 400.0, 500.0], true));
    }

    #[test]
    fn ages_outside_stand_at_the_border() {
        let band = |number, from, to| Band {
            number,
            from,
            to,
            rate: Some(1.0),
        };
        let curve = Curve {
            hazard: Hazard::Zero,
            set_at: Vec::new(),
            bands: vec![band(0, 0.0, Some(4.0)), band(1, 4.0, None)],
            strikes: Vec::new(),
        };
        let frame = Frame {
            left: 50.0,
            width: 1000.0,
            top: 0.0,
            height: 100.0,
        };
        // the second piece is drawn up to the age 5
        let axes = Axes::new(&curve, frame);
        for (piece, age, x) in [
            (0, 0.0, 50.0),
            (0, 2.0, 450.0),
            (0, 4.5, 850.0),
            (1, 0.0, 850.0),
            (1, 3.9, 850.0),
            (1, 4.5, 950.0),
            (1, 6.0, 1050.0),
        ] {
            assert_eq!(axes.x(piece, age), x, "age {age} of piece {piece}");
        }
    }

    #[test]
    fn every_piece_has_room() {
        let lengths = [1e-300, 1.0, 1e12, 1e-5, 3.0, 1e3, 1e6, 1e9, 1e300];
        let (widths, is_to_scale) = widths(&lengths, lengths.iter().sum(), 1000.0);
        assert!(!is_to_scale);
        assert!(widths.iter().all(|width| *width >= LEAST), "{widths:?}");
        assert!((widths.iter().sum::<f64>() - 1000.0).abs() < 1e-6);
    }
}
