//! Text to bytes to text to bytes, on random sessions with junk among the commands.

use super::{SessionText, Source, TextError};
use crate::session::Session;

/// SplitMix64.
struct Random(u64);

impl Random {
    fn next(&mut self) -> u64 {
        self.0 = self.0.wrapping_add(0x9e37_79b9_7f4a_7c15);
        let mut z = self.0;
        z = (z ^ (z >> 30)).wrapping_mul(0xbf58_476d_1ce4_e5b9);
        z = (z ^ (z >> 27)).wrapping_mul(0x94d0_49bb_1331_11eb);
        z ^ (z >> 31)
    }

    fn below(&mut self, limit: u64) -> u64 {
        self.next() % limit
    }

    /// Bits of a float: any, or one of the edges.
    fn float(&mut self) -> [u8; 8] {
        let edges = [
            0,
            1,
            1 << 63,
            0x7ff0 << 48,
            0xfff0 << 48,
            0x7ff8 << 48,
            0x7ff0_0000_0000_0001,
            0x3ff0 << 48,
        ];
        let bits = match self.below(3) {
            0 => edges[self.below(8) as usize],
            1 => (self.below(1000) as f64 / 8.0).to_bits(),
            _ => self.next(),
        };
        bits.to_le_bytes()
    }

    /// The operands of a command with this code: good ones, but for one byte in a while.
    fn operands(&mut self, code: u8) -> Vec<u8> {
        let mut bytes = match code {
            1 => self.create(),
            2 => self.set(),
            3 => self.next().to_le_bytes()[..5].to_vec(),
            4 | 6 => self.reschedule(),
            5 => [vec![self.below(16) as u8], self.float().to_vec()].concat(),
            _ => Vec::new(),
        };
        if !bytes.is_empty() && self.below(6) == 0 {
            let place = self.below(bytes.len() as u64) as usize;
            bytes[place] = self.next() as u8;
        }
        bytes
    }

    fn create(&mut self) -> Vec<u8> {
        let mut bytes = vec![self.below(16) as u8];
        bytes.extend(self.next().to_le_bytes());
        bytes.extend([self.below(2) as u8, self.below(3) as u8]);
        bytes.extend(self.float());
        let has = self.below(2);
        bytes.push(has as u8);
        bytes.extend((self.next() * has).to_le_bytes());
        bytes.extend((self.next() as u32 * has as u32).to_le_bytes());
        bytes
    }

    fn set(&mut self) -> Vec<u8> {
        let kind = self.below(5);
        let mut bytes = self.next().to_le_bytes().to_vec();
        bytes.extend([0, kind as u8]);
        bytes.extend(if kind == 0 { [0; 8] } else { self.float() });
        bytes.extend(self.float());
        let count = if kind == 3 { self.below(9) } else { 0 };
        bytes.push(count as u8);
        for _ in 0..2 * count {
            bytes.extend(self.float());
        }
        bytes.resize(155, 0);
        bytes
    }

    fn reschedule(&mut self) -> Vec<u8> {
        let mut bytes = vec![self.below(16) as u8];
        bytes.extend(self.float());
        let has = self.below(2) as u8;
        bytes.push(has);
        bytes.extend(if has == 0 { [0; 8] } else { self.float() });
        bytes.extend((self.next() as i32).to_le_bytes());
        bytes
    }

    /// A list of commands, junk in its middle or at its end in a while.
    fn commands(&mut self) -> Vec<u8> {
        let mut bytes = Vec::new();
        for _ in 0..self.below(30) {
            let code = 1 + self.below(8) as u8;
            bytes.push(code);
            bytes.extend(self.operands(code));
        }
        if self.below(3) == 0 {
            let place = self.below(bytes.len() as u64 + 1) as usize;
            bytes.insert(place, self.next() as u8);
        }
        if self.below(3) == 0 {
            bytes.truncate(self.below(bytes.len() as u64 + 1) as usize);
        }
        bytes
    }

    fn thresholds(&mut self) -> Vec<f64> {
        let count = self.below(20);
        (0..count)
            .map(|_| f64::from_le_bytes(self.float()))
            .collect()
    }
}

/// The session that a text says, as bytes.
fn read(text: &str) -> Vec<u8> {
    let session: Result<Session, TextError> = text.parse();
    let session = session.unwrap_or_else(|error| panic!("{error}\n{text}"));
    session.to_bytes()
}

#[test]
fn every_byte_comes_back() {
    let mut random = Random(20_261_115);
    let mut raw = 0;
    for _ in 0..2000 {
        let (commands, thresholds) = (random.commands(), random.thresholds());
        let journal = (random.below(2) == 0).then(|| random.below(5000));
        let mut session = Session::new(thresholds);
        session.push_raw(&commands);
        if let Some(length) = journal {
            session = session.with_journal_length(length as usize);
        }
        let bytes = session.to_bytes();
        let text = Session::from_bytes(&bytes).unwrap().to_string();
        assert_eq!(read(&text), bytes, "{text}");
        let again = Session::from_bytes(&read(&text)).unwrap().to_string();
        assert_eq!(again, text);
        raw += usize::from(text.contains("raw "));
    }
    assert!((200..1800).contains(&raw), "{raw} sessions have raw lines");
}

#[test]
fn operands_in_any_order_and_form_mean_the_same() {
    let short = "machine 2 \"press\"\ncause 7 \"seal\"\n\
        create policy=restart machine=\"press\" # first\n\
        \tset hazard=constant now=0x3ff0000000000000 rate=+5e-1 cause=\"seal\" machine=2\n\
        resume now=1 machine=2\nraw 0708\n";
    let long = "create machine=2 process=0 policy=restart tie=lowest scale=1\n\
        set machine=2 cause=7 priority=0 now=1 hazard=constant rate=0.5\n\
        resume machine=2 now=1 priority=0\ndeliver\nundo\n";
    assert_eq!(read(short), read(long));
    let back = Session::from_bytes(&read(short)).unwrap();
    assert_eq!(back.to_string(), long);
}

#[test]
fn text_to_text_keeps_comments_and_names() {
    let text = "# head\n\nmachine 2 \"press \\\"2\\\"\"  # the old one\nthresholds 1 2.50\npause now=1.0 machine=2#now\n";
    let kept = "# head\n\nmachine 2 \"press \\\"2\\\"\"  # the old one\nthresholds 1 2.5\npause machine=2 now=1  #now\n";
    let session: SessionText = text.parse().unwrap();
    assert_eq!(session.to_string(), kept);
    let again: SessionText = kept.parse().unwrap();
    assert_eq!(again.to_string(), kept);
}

#[test]
fn thresholds_of_a_file() {
    let folder = std::env::temp_dir().join(format!("olgaemuri-thresholds-{}", std::process::id()));
    std::fs::create_dir_all(&folder).unwrap();
    std::fs::write(
        folder.join("good"),
        "# recorded\n1 2.5\n\n0x7ff8000000000001 # bad one\n",
    )
    .unwrap();
    std::fs::write(folder.join("bad"), "1\n2 x\n").unwrap();
    let source = Source::named("shop").in_folder(&folder);
    let parse = |text: &str| SessionText::parse(text.as_bytes(), &source);
    let good = parse("thresholds 9\nthresholds from \"good\"\n").unwrap();
    let bits: Vec<u64> = good
        .thresholds()
        .iter()
        .map(|value| value.to_bits())
        .collect();
    let expected = [
        9f64.to_bits(),
        1f64.to_bits(),
        2.5f64.to_bits(),
        0x7ff8_0000_0000_0001,
    ];
    assert_eq!(bits, expected);
    assert_eq!(good.to_string(), "thresholds 9\nthresholds from \"good\"\n");
    let fault = parse("thresholds from \"bad\"").unwrap_err().faults()[0].clone();
    assert_eq!((fault.line, fault.column), (2, 3));
    assert!(fault.file.ends_with("bad"));
    std::fs::remove_dir_all(&folder).unwrap();
}

#[test]
fn inputs_know_their_lines() {
    let text = "# head\nundo\nraw 07\n\nraw 03 00\nraw 01000000\nraw 0708\nraw ff07\nundo\n";
    let session: SessionText = text.parse().unwrap();
    let inputs = session.session().inputs();
    assert_eq!(session.lines_of(inputs.iter()), [2, 3, 5, 7, 7, 8]);
}
