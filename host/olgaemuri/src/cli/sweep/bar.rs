//! A progress bar, on a terminal only.

use std::io::{IsTerminal, Write, stderr};
use std::time::{Duration, Instant};

/// How often the bar is drawn anew.
const PAUSE: Duration = Duration::from_millis(200);

const WIDTH: u64 = 30;

pub struct Bar {
    all: u64,
    done: u64,
    begun: Instant,
    drawn: Option<Instant>,
    on_terminal: bool,
}

impl Bar {
    pub fn new(all: u64) -> Self {
        Self {
            all,
            done: 0,
            begun: Instant::now(),
            drawn: None,
            on_terminal: stderr().is_terminal(),
        }
    }

    /// One more run is done. A bar that cannot be drawn is no failure.
    pub fn step(&mut self) {
        self.done += 1;
        let last = self.drawn.unwrap_or(self.begun);
        if self.on_terminal && last.elapsed() >= PAUSE {
            self.drawn = Some(Instant::now());
            let bar = bar(self.done, self.all, self.begun.elapsed());
            let _ = write!(stderr(), "\r{bar}\x1b[K");
        }
    }
}

/// The bar is taken away.
impl Drop for Bar {
    fn drop(&mut self) {
        if self.drawn.is_some() {
            let _ = write!(stderr(), "\r\x1b[K");
        }
    }
}

fn bar(done: u64, all: u64, elapsed: Duration) -> String {
    let full = (u128::from(WIDTH) * u128::from(done) / u128::from(all.max(1))) as usize;
    let empty = WIDTH as usize - full;
    let a_second = done as f64 / elapsed.as_secs_f64().max(1e-9);
    let left = (all - done) as f64 / a_second;
    let (full, empty) = ("#".repeat(full), ".".repeat(empty));
    format!("[{full}{empty}] {done} of {all} runs, {a_second:.0} a second, {left:.0} s left")
}

#[cfg(test)]
mod tests {
    use super::*;

    #[test]
    fn the_bar_grows() {
        let drawn = bar(5000, 10_000, Duration::from_secs(2));
        let expected =
            "[###############...............] 5000 of 10000 runs, 2500 a second, 2 s left";
        assert_eq!(drawn, expected);
        assert!(bar(7, 7, Duration::ZERO).starts_with(&format!("[{}] 7 of 7", "#".repeat(30))));
    }
}
