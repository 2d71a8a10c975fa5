//! The sampler (document 01, "Run call and sampler").

use crate::answer::Answer;
use crate::piece::to_byte;
use crate::refusal::Refusal;
use crate::request::Request;
use kairo_ecs_rng::{DeterministicStream, RealizedEvent};

/// The largest threshold.
pub const THRESHOLD_LIMIT: f64 = 1024.0;

/// By 1 for a position past the thresholds, then 15 or 16 by the first draw that would fail.
pub fn draw_refusal(stream: &DeterministicStream, draws: usize) -> Option<Refusal> {
    let position = stream.position();
    if position > stream.len() {
        return Some(Refusal::InvalidState);
    }
    (position..)
        .take(draws)
        .find_map(|index| match stream.threshold(index) {
            None => Some(Refusal::StreamExhausted),
            Some(w) if threshold_valid(w) => None,
            Some(_) => Some(Refusal::InvalidThreshold),
        })
}

/// Finite, not below 0, at most 1,024. Negative zero is not below 0.
pub fn threshold_valid(w: f64) -> bool {
    (0.0..=THRESHOLD_LIMIT).contains(&w)
}

/// Samples the next event among the used records and moves the position past their draws.
/// A refused request draws nothing.
pub fn sample(request: &Request, thresholds: &[u8], position: &mut u64) -> Answer {
    let undrawn = DeterministicStream::new(thresholds, *position);
    let event = match sample_event(request, thresholds, position) {
        Ok(event) => event,
        Err(refusal) => return Answer::refused(refusal),
    };
    let winner = event.filter(|event| !event.is_censored);
    let piece = winner.map_or(0, |event| request.piece(&event, &undrawn));
    Answer::sampled(event, to_byte(piece))
}

/// The same without the piece: what the Rust itself gives.
pub fn sample_event(
    request: &Request,
    thresholds: &[u8],
    position: &mut u64,
) -> Result<Option<RealizedEvent>, Refusal> {
    let mut stream = DeterministicStream::new(thresholds, *position);
    let refused = request
        .field_refusal()
        .or_else(|| draw_refusal(&stream, request.used_count()));
    if let Some(refusal) = refused {
        return Err(refusal);
    }
    let causes = request.build(&stream);
    let event = causes.sample_next(request.age, request.censor_age(), &mut stream);
    *position = stream.position();
    Ok(event)
}
