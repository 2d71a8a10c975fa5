//! Stand-in for the crate `kairo_ecs_rng`: its competing_risks.rs, unchanged, over a stream of
//! recorded thresholds in place of the generator (document 01, "Draws": the tape). Clocks hold a
//! hazard that is the Rust's own or kind 4 of document 02.

#![forbid(unsafe_code)]

mod hazard_rate;
mod stream;
mod weibull;

// the file, as host/oracle/unchanged.rs has found it
include!(concat!(env!("OUT_DIR"), "/unchanged.rs"));

pub use competing_risks::{
    draw_standard_threshold, CauseId, CompetingCause, CompetingHazards,
    HazardRate as UnchangedHazard, RealizedEvent, TieBreaker,
};
pub use hazard_rate::HazardRate;
pub use stream::{DeterministicStream, THRESHOLD_BYTES};
pub use weibull::Weibull;

pub const RNG_DISTRIBUTION_PROVENANCE_V1: &str = "rand_distr_0.6";
pub const RNG_DISTRIBUTION_PROVENANCE_LEGACY: &str = "legacy_inverse_transform";
