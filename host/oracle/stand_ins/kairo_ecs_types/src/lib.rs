//! The crate `kairo_ecs_types`, unchanged. hazard_clock.rs needs it.

#![forbid(unsafe_code)]

// the file, as host/oracle/unchanged.rs has found it
include!(concat!(env!("OUT_DIR"), "/unchanged.rs"));

pub use unchanged::*;
