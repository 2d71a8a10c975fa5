//! The Rust side of the sampler: the same work from the same bytes through the unchanged Rust, which gives no piece.

use crate::formats::{self, POSITION_BYTES, SAMPLE_BYTES};
use kairo_ecs_rng::DeterministicStream;
use reference::answer::Answer;
use reference::request::Request;
use reference::sampler;
use std::hint::black_box;

/// A whole call for each position: check, build, sample. The hint keeps the compiler from doing the first two once for all.
pub fn sample(request: &[u8], stream: &[u8], positions: &[u8], out: &mut [u8]) -> u64 {
    let request = Request::decode(request);
    each_position(positions, out, |position| {
        let event = sampler::sample_event(black_box(&request), stream, position);
        event.map_or_else(Answer::refused, |event| Answer::sampled(event, 0))
    })
}

/// The causes, of kinds 0 to 3, are built once and nothing is checked: the Rust's own `sample_next`.
pub fn sample_prebuilt(request: &[u8], stream: &[u8], positions: &[u8], out: &mut [u8]) -> u64 {
    let request = Request::decode(request);
    let causes = request.build(&DeterministicStream::new(stream, 0));
    each_position(positions, out, |position| {
        let mut stream = DeterministicStream::new(stream, *position);
        let event = causes.sample_next(request.age, request.censor_age(), &mut stream);
        *position = stream.position();
        Answer::sampled(event, 0)
    })
}

fn each_position(positions: &[u8], out: &mut [u8], call: impl Fn(&mut u64) -> Answer) -> u64 {
    let positions = positions.chunks_exact(POSITION_BYTES);
    let mut done = 0;
    for (position, out) in positions.zip(out.chunks_exact_mut(SAMPLE_BYTES)) {
        let mut position = formats::read_position(position);
        let answer = call(&mut position);
        out.copy_from_slice(&formats::sample(&answer, position));
        done += 1;
    }
    done
}
