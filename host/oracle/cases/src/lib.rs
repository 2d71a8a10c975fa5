//! Inputs of evaluations, samples, rates, clocks and engines: random ones from a seed, chosen ones, and the fixed lists.
//! Expected answers come from the crate `reference`.

#![forbid(unsafe_code)]

pub mod chosen;
pub mod chosen_histories;
pub mod chosen_pieces;
pub mod chosen_sessions;
pub mod chosen_weibull;
pub mod clock_histories;
pub mod clock_steps;
pub mod command_damage;
pub mod command_tally;
pub mod commands;
pub mod equal_ticks;
pub mod evaluations;
pub mod floats;
pub mod full_clocks;
pub mod hazard_damage;
pub mod hazards;
pub mod inputs;
pub mod lists;
pub mod order_claims;
pub mod piece_coverage;
pub mod piece_tally;
pub mod powf_tally;
pub mod radicands;
pub mod random;
pub mod random_sessions;
pub mod rate_pairs;
pub mod rate_tally;
pub mod record_orders;
pub mod refused_sessions;
pub mod sample_damage;
pub mod samples;
pub mod session_buffers;
pub mod session_coverage;
pub mod session_kinds;
pub mod sessions;
pub mod tally;
pub mod weibull;
pub mod weibull_coverage;
pub mod weibull_tally;
pub mod words;
