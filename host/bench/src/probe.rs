//! The Rattle side: the functions of libprobe.a and safe calls over them, and one over `rate_for_wait` of libolgaemuri.a. The only file
//! with `unsafe`.

#![allow(unsafe_code)]

use reference::hazard::{Hazard, PAIRS};

/// A wait, and the piece of the curve that it ends in.
#[repr(C)]
#[derive(Clone, Copy, Debug)]
pub struct Inverted {
    /// A NaN where there is none.
    pub wait: f64,
    pub piece: u64,
}

mod raw {
    use super::{Inverted, PAIRS};

    unsafe extern "C" {
        pub fn probe_evaluate(
            operation: u8,
            hazard: *const u8,
            hazard_len: usize,
            points: *const u8,
            points_len: usize,
            out: *mut u8,
            out_len: usize,
        ) -> u64;

        pub fn probe_evaluate_numbers(
            operation: u8,
            kind: u8,
            first: f64,
            count: u8,
            ends: &[f64; PAIRS],
            rates: &[f64; PAIRS],
            t: f64,
            w: f64,
        ) -> f64;

        pub fn probe_hazard_at(
            kind: u8,
            first: f64,
            count: u64,
            ends: &[f64; PAIRS],
            rates: &[f64; PAIRS],
            t: f64,
        ) -> f64;

        pub fn probe_cumulative_hazard(
            kind: u8,
            first: f64,
            count: u64,
            ends: &[f64; PAIRS],
            rates: &[f64; PAIRS],
            t: f64,
        ) -> f64;

        pub fn probe_invert_cumulative_hazard(
            kind: u8,
            first: f64,
            count: u64,
            ends: &[f64; PAIRS],
            rates: &[f64; PAIRS],
            t_start: f64,
            target_w: f64,
        ) -> Inverted;

        pub fn probe_nearest_root(x: f64) -> f64;

        pub fn probe_sample(
            request: *const u8,
            request_len: usize,
            stream: *const u8,
            stream_len: usize,
            positions: *const u8,
            positions_len: usize,
            out: *mut u8,
            out_len: usize,
        ) -> u64;
    }
}

/// One checked evaluation for each point; returns how many were made.
pub fn evaluate(operation: u8, hazard: &[u8], points: &[u8], out: &mut [u8]) -> u64 {
    // SAFETY: every pointer comes from a slice and stands with its length; `out` is ours alone.
    unsafe {
        raw::probe_evaluate(
            operation,
            hazard.as_ptr(),
            hazard.len(),
            points.as_ptr(),
            points.len(),
            out.as_mut_ptr(),
            out.len(),
        )
    }
}

/// A hazard's fields as numbers.
pub struct Fields {
    kind: u8,
    first: f64,
    count: u8,
    ends: [f64; PAIRS],
    rates: [f64; PAIRS],
}

impl Fields {
    pub fn of(hazard: &Hazard) -> Self {
        Self {
            kind: hazard.kind,
            first: hazard.first,
            count: hazard.count,
            ends: hazard.pairs.map(|pair| pair.end),
            rates: hazard.pairs.map(|pair| pair.rate),
        }
    }
}

/// A checked evaluation; a NaN where it is refused or there is no wait.
pub fn evaluate_numbers(operation: u8, h: &Fields, t: f64, w: f64) -> f64 {
    // SAFETY: numbers, and references to arrays of the length that the function takes.
    unsafe {
        raw::probe_evaluate_numbers(operation, h.kind, h.first, h.count, &h.ends, &h.rates, t, w)
    }
}

pub fn hazard_at(h: &Fields, t: f64) -> f64 {
    // SAFETY: as in `evaluate_numbers`.
    unsafe { raw::probe_hazard_at(h.kind, h.first, u64::from(h.count), &h.ends, &h.rates, t) }
}

pub fn cumulative_hazard(h: &Fields, t: f64) -> f64 {
    // SAFETY: as in `evaluate_numbers`.
    unsafe {
        raw::probe_cumulative_hazard(h.kind, h.first, u64::from(h.count), &h.ends, &h.rates, t)
    }
}

pub fn invert_cumulative_hazard(h: &Fields, t_start: f64, target_w: f64) -> Inverted {
    // SAFETY: as in `evaluate_numbers`.
    unsafe {
        raw::probe_invert_cumulative_hazard(
            h.kind,
            h.first,
            u64::from(h.count),
            &h.ends,
            &h.rates,
            t_start,
            target_w,
        )
    }
}

/// The f64 nearest to the root of a number above 0; infinite for infinity.
pub fn nearest_root(x: f64) -> f64 {
    // SAFETY: a number.
    unsafe { raw::probe_nearest_root(x) }
}

/// One checked sample for each position; returns how many were made.
pub fn sample(request: &[u8], stream: &[u8], positions: &[u8], out: &mut [u8]) -> u64 {
    // SAFETY: as in `evaluate`.
    unsafe {
        raw::probe_sample(
            request.as_ptr(),
            request.len(),
            stream.as_ptr(),
            stream.len(),
            positions.as_ptr(),
            positions.len(),
            out.as_mut_ptr(),
            out.len(),
        )
    }
}

/// The rate for a wait: the number, and what stands where `held` stood before the call.
pub fn rate_for_wait(threshold: f64, wait: f64, held: f64) -> (u8, f64) {
    let mut rate = held;
    // SAFETY: the pointer is that of a float of our own.
    let number = unsafe { olgaemuri_sys::raw::olgaemuri_rate_for_wait(threshold, wait, &mut rate) };
    (number, rate)
}
