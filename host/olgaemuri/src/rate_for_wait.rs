//! The constant rate for a wait (document 02, change 11).

use crate::refusal::Refusal;

/// The smallest constant rate with which a threshold is used up after exactly this wait: for one who knows when a tool broke.
///
/// The threshold is above 0 and at most 1,024, the wait from 2^-40 to 2^40. The rate is the smallest `f64` above 0 and at most 2^40
/// for which `threshold / rate` is `wait` to the last bit. Where a cause with a [`Hazard::Constant`](crate::Hazard::Constant) of this
/// rate draws this threshold, and SET and RESCHEDULE are at time 0, its clock breaks down after exactly this wait. The wait counts from
/// the RESCHEDULE; at a later time the clock rounds the sum of time and wait.
///
/// # Errors
///
/// [`Refusal::NoRate`] where no `f64` in that range does it, [`Refusal::OutsideLimits`] where threshold or wait is outside its limits.
///
/// ```
/// use olgaemuri::{Refusal, rate_for_wait};
///
/// assert_eq!(rate_for_wait(2.0, 4.0), Ok(0.5));
/// // 1 / 0.2 is 5 too, but 0.2 is not the smallest such rate
/// assert_eq!(rate_for_wait(1.0, 5.0), Ok(0.19999999999999998));
/// assert_eq!(rate_for_wait(1.0, 49.0), Err(Refusal::NoRate));
/// assert_eq!(rate_for_wait(0.0, 4.0), Err(Refusal::OutsideLimits));
/// ```
pub fn rate_for_wait(threshold: f64, wait: f64) -> Result<f64, Refusal> {
    let (number, rate) = olgaemuri_sys::rate_for_wait(threshold, wait);
    match number {
        0 => Ok(rate),
        number => Err(Refusal::from_number(number).expect("the engine returns 0, 23 or 24")),
    }
}
