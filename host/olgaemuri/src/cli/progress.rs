//! Progress of long work, on a terminal only.

use std::io::{self, IsTerminal, Write, stderr};
use std::sync::mpsc::{Receiver, RecvTimeoutError, channel};
use std::thread;
use std::time::{Duration, Instant};

/// Work that takes longer than this is told of, and how often the line is renewed.
const PATIENCE: Duration = Duration::from_millis(500);

/// Does the work. Meanwhile, if standard error is a terminal, a line there says what is done and for how long.
pub fn watched<T>(what: &str, work: impl FnOnce() -> T) -> T {
    if !stderr().is_terminal() {
        return work();
    }
    let (done, waiting) = channel::<()>();
    let what = what.to_string();
    let teller = thread::spawn(move || tell(&what, &waiting, PATIENCE, &mut stderr()));
    let result = work();
    drop(done);
    // a teller that failed has only left its line on the terminal
    let _ = teller.join();
    result
}

/// Writes a line after each time of patience until the other end of the channel is gone, and takes the line away then.
fn tell(
    what: &str,
    waiting: &Receiver<()>,
    patience: Duration,
    out: &mut dyn Write,
) -> io::Result<()> {
    let begun = Instant::now();
    let mut told = false;
    while waiting.recv_timeout(patience) == Err(RecvTimeoutError::Timeout) {
        write!(out, "\r{what}: {} s ", begun.elapsed().as_secs())?;
        out.flush()?;
        told = true;
    }
    if told {
        write!(out, "\r\x1b[K")?;
    }
    out.flush()
}

#[cfg(test)]
mod tests {
    use super::*;
    use std::sync::mpsc::Sender;

    /// A terminal on which the first line ends the work.
    struct Screen {
        text: Vec<u8>,
        work: Option<Sender<()>>,
    }

    impl Write for Screen {
        fn write(&mut self, bytes: &[u8]) -> io::Result<usize> {
            self.text.extend_from_slice(bytes);
            Ok(bytes.len())
        }

        fn flush(&mut self) -> io::Result<()> {
            self.work = None;
            Ok(())
        }
    }

    /// What is told of work that goes on until the first line, or has ended already.
    fn told(goes_on: bool) -> String {
        let (work, waiting) = channel();
        let mut screen = Screen {
            text: Vec::new(),
            work: goes_on.then_some(work),
        };
        tell("running", &waiting, Duration::from_millis(1), &mut screen).unwrap();
        String::from_utf8(screen.text).unwrap()
    }

    #[test]
    fn long_work_is_told_of_and_the_line_taken_away() {
        let told = told(true);
        assert!(told.starts_with("\rrunning: "), "{told:?}");
        assert!(told.ends_with(" s \r\x1b[K"), "{told:?}");
    }

    #[test]
    fn work_that_ends_at_once_is_not() {
        assert_eq!(told(false), "");
    }
}
