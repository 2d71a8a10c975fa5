//! The hazard that a clock holds, under the name that hazard_clock.rs gives it: the Rust's own, or kind 4 of document 02, which is not
//! the Rust's Weibull, since `powf` may differ from it in the last bit.

use crate::competing_risks;
use crate::weibull::Weibull;

#[derive(Clone, Debug, PartialEq)]
pub enum HazardRate {
    Unchanged(competing_risks::HazardRate),
    Weibull(Weibull),
}

impl HazardRate {
    pub fn hazard_at(&self, t: f64) -> f64 {
        match self {
            Self::Unchanged(hazard) => hazard.hazard_at(t),
            Self::Weibull(hazard) => hazard.hazard_at(t),
        }
    }

    pub fn cumulative_hazard(&self, t: f64) -> f64 {
        match self {
            Self::Unchanged(hazard) => hazard.cumulative_hazard(t),
            Self::Weibull(hazard) => hazard.cumulative_hazard(t),
        }
    }

    pub fn invert_cumulative_hazard(&self, t_start: f64, target_w: f64) -> Option<f64> {
        match self {
            Self::Unchanged(hazard) => hazard.invert_cumulative_hazard(t_start, target_w),
            Self::Weibull(hazard) => hazard.invert_cumulative_hazard(t_start, target_w),
        }
    }
}
