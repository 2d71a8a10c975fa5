//! Work on all cores, its results in order.

use std::io;
use std::ops::Range;
use std::sync::mpsc::{Receiver, sync_channel};
use std::thread;

/// Items that go from one thread to the other together.
const CHUNK: u64 = 32;

/// Chunks of a thread that may wait to be taken.
const WAITING: usize = 4;

/// Does the work for each number, in so many threads, and takes the results in the numbers' order. What waits to be taken is bounded;
/// an error of the taker ends the work.
pub fn in_order<T: Send>(
    numbers: Range<u64>,
    threads: usize,
    work: impl Fn(u64) -> T + Sync,
    mut take: impl FnMut(T) -> io::Result<()>,
) -> io::Result<()> {
    let chunks = (numbers.end - numbers.start).div_ceil(CHUNK);
    let chunk = |place: u64| {
        let begin = numbers.start + place * CHUNK;
        begin..numbers.end.min(begin + CHUNK)
    };
    let threads = threads.max(1);
    thread::scope(|scope| {
        let (chunk, work) = (&chunk, &work);
        // thread n does chunks n, n + threads, n + 2 threads, ...
        let begun = (0..chunks).take(threads).map(|first| {
            let (done, waiting) = sync_channel(WAITING);
            let own = move || {
                let mut own = (first..chunks).step_by(threads);
                // a taker that is gone wants no more
                own.try_for_each(|place| done.send(chunk(place).map(work).collect::<Vec<T>>()))
            };
            thread::Builder::new().spawn_scoped(scope, own)?;
            Ok(waiting)
        });
        let begun: Vec<Receiver<Vec<T>>> = begun.collect::<io::Result<_>>()?;
        let turns = begun.iter().cycle().zip(0..chunks);
        // a thread that failed sends no more, and its failure goes on from here
        let results = turns.map_while(|(thread, _)| thread.recv().ok());
        results.flatten().try_for_each(&mut take)
    })
}

#[cfg(test)]
mod tests {
    use super::*;
    use std::time::Duration;

    #[test]
    fn results_come_in_order() {
        for (begin, end) in [(0, 0), (0, 1), (5, 36), (7, 1000)] {
            for threads in [1, 2, 3, 50] {
                let mut taken = Vec::new();
                let slow = |number: u64| {
                    thread::sleep(Duration::from_micros(number % 7 * 10));
                    number
                };
                let take = |number| {
                    taken.push(number);
                    Ok(())
                };
                in_order(begin..end, threads, slow, take).unwrap();
                assert_eq!(taken, (begin..end).collect::<Vec<u64>>());
            }
        }
    }

    #[test]
    fn an_error_ends_the_work() {
        let mut taken = 0;
        let take = |_| {
            taken += 1;
            if taken < 100 {
                Ok(())
            } else {
                Err(io::Error::other("full"))
            }
        };
        let ended = in_order(0..u64::MAX / 2, 3, |number| number, take);
        assert_eq!(ended.unwrap_err().to_string(), "full");
        assert_eq!(taken, 100);
    }
}
