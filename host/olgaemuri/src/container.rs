//! A session in bytes: a head of 32 bytes, the commands, the thresholds (docs/SESSION-FORMAT.md).

use crate::session::Session;
use crate::text::MAX_JOURNAL;
use crate::thresholds::{thresholds_from_bytes, thresholds_to_bytes};
use std::error::Error;
use std::fmt;

/// The first bytes. No text begins like this, since 01 is no character of any word.
pub(crate) const MAGIC: &[u8; 8] = b"OLGAEMU\x01";

const HEAD: usize = 32;

/// In the place of the journal's length where the session gives none.
const NO_JOURNAL: u64 = u64::MAX;

/// Why bytes are no session.
#[derive(Clone, Copy, Debug, PartialEq, Eq)]
#[non_exhaustive]
pub enum BytesError {
    /// They do not begin with a head of 32 bytes.
    Head,
    /// The journal is longer than 1 GiB: its length.
    Journal(u64),
    /// The lengths in the head are not those of the parts.
    Lengths {
        /// Bytes of commands, by the head.
        commands: u64,
        /// Bytes of thresholds, by the head.
        thresholds: u64,
        /// Bytes behind the head.
        found: u64,
    },
    /// The thresholds are not of 8 bytes each.
    Thresholds,
}

impl fmt::Display for BytesError {
    fn fmt(&self, f: &mut fmt::Formatter) -> fmt::Result {
        match self {
            Self::Head => f.write_str(
                "expected a session in bytes, which begins with `OLGAEMU`, the byte 01 and three lengths",
            ),
            Self::Journal(length) => {
                write!(f, "expected a journal of at most {MAX_JOURNAL} bytes, not {length}")
            }
            Self::Lengths {
                commands,
                thresholds,
                found,
            } => write!(
                f,
                "expected {commands} bytes of commands and {thresholds} of thresholds, found {found} in all"
            ),
            Self::Thresholds => f.write_str("expected thresholds of 8 bytes each"),
        }
    }
}

impl Error for BytesError {}

impl Session {
    /// The session in bytes, for files and for other programs.
    #[must_use]
    pub fn to_bytes(&self) -> Vec<u8> {
        let thresholds = thresholds_to_bytes(self.thresholds());
        let journal = self.chosen_journal_length();
        let lengths = [
            journal.unwrap_or(NO_JOURNAL),
            self.commands().len() as u64,
            thresholds.len() as u64,
        ];
        let lengths = lengths.map(u64::to_le_bytes).concat();
        [MAGIC, lengths.as_slice(), self.commands(), &thresholds].concat()
    }

    /// The session with these bytes.
    ///
    /// # Errors
    ///
    /// The bytes are no session.
    pub fn from_bytes(bytes: &[u8]) -> Result<Self, BytesError> {
        let head = bytes.get(..HEAD).filter(|head| head.starts_with(MAGIC));
        let head = head.ok_or(BytesError::Head)?;
        let [journal, commands, thresholds] = [8, 16, 24].map(|at| {
            let field = head[at..].first_chunk().expect("the head has 32 bytes");
            u64::from_le_bytes(*field)
        });
        if journal > MAX_JOURNAL && journal != NO_JOURNAL {
            return Err(BytesError::Journal(journal));
        }
        let body = &bytes[HEAD..];
        let found = body.len() as u64;
        if commands.checked_add(thresholds) != Some(found) {
            return Err(BytesError::Lengths {
                commands,
                thresholds,
                found,
            });
        }
        let (commands, thresholds) = body.split_at(commands as usize);
        let thresholds = thresholds_from_bytes(thresholds).ok_or(BytesError::Thresholds)?;
        let journal = Some(journal).filter(|journal| *journal != NO_JOURNAL);
        Ok(Self::of(thresholds, commands.to_vec(), journal))
    }
}

#[cfg(test)]
mod tests {
    use super::*;

    fn session(commands: &[u8], thresholds: &[f64]) -> Session {
        let mut session = Session::new(thresholds);
        session.push_raw(commands);
        session
    }

    fn sample() -> Vec<u8> {
        let session = session(&[7, 8, 9, 1], &[1.0, f64::NAN]);
        session.with_journal_length(77).to_bytes()
    }

    #[test]
    fn bytes_come_back() {
        let back = Session::from_bytes(&sample()).unwrap();
        assert_eq!(
            back.to_string(),
            "journal 77\nthresholds 1 0x7ff8000000000000\ndeliver\nundo\nraw 09 01\n"
        );
        assert_eq!(back.to_bytes(), sample());
    }

    /// As docs/SESSION-FORMAT.md sets it out.
    #[test]
    fn every_byte_has_its_place() {
        let mut expected = b"OLGAEMU\x01".to_vec();
        expected.extend([77, 0, 0, 0, 0, 0, 0, 0]);
        expected.extend([4, 0, 0, 0, 0, 0, 0, 0]);
        expected.extend([16, 0, 0, 0, 0, 0, 0, 0]);
        expected.extend([7, 8, 9, 1]);
        expected.extend([0, 0, 0, 0, 0, 0, 0xf0, 0x3f]);
        expected.extend([0, 0, 0, 0, 0, 0, 0xf8, 0x7f]);
        assert_eq!(sample(), expected);
        assert_eq!(session(&[], &[]).to_bytes()[8..16], [255; 8]);
    }

    /// A journal that is longer than can be said is written as room for all.
    #[test]
    fn long_journals_can_be_written() {
        for length in [1 << 30, (1 << 30) + 1, usize::MAX] {
            let session = session(&[7, 8], &[1.0]).with_journal_length(length);
            let back = Session::from_bytes(&session.to_bytes()).unwrap();
            let read: Session = session.to_string().parse().unwrap();
            assert_eq!((back.run(), read.run()), (session.run(), session.run()));
        }
    }

    #[test]
    fn every_shorter_file_is_refused() {
        let bytes = sample();
        for length in 0..bytes.len() {
            let error = Session::from_bytes(&bytes[..length]).unwrap_err();
            assert!(error.to_string().starts_with("expected "));
        }
    }

    #[test]
    fn bad_heads_are_refused() {
        for (at, byte) in [(0, b'o'), (7, 2), (12, 1), (16, 5), (23, 255), (24, 15)] {
            let mut bytes = sample();
            bytes[at] = byte;
            assert!(Session::from_bytes(&bytes).is_err(), "byte {at}");
        }
    }
}
