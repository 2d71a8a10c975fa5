//! One field of a state's record, one number of its rows, or one bit of the applied commands, changed at random.

use crate::layout::{Field, Kind, Part, Place, is_used};
use crate::rows::Rows;
use cases::random::Random;
use olgaemuri_sys::{STATE_FLOAT_ROWS, STATE_WORD_ROWS};
use reference::dump::QUEUED_BYTES;
use reference::hazard::SMALLEST_SCALE;
use reference::record::HEAD_BYTES;

/// Extreme floats, those among them that state validation refuses.
const FLOATS: [f64; 17] = [
    0.0,
    -0.0,
    1.0,
    -1.0,
    0.5,
    1_099_511_627_776.0,
    1_099_511_627_777.0,
    SMALLEST_SCALE,
    SMALLEST_SCALE.next_down(),
    f64::MIN_POSITIVE,
    f64::from_bits(1),
    1e308,
    -1e308,
    f64::MAX,
    f64::INFINITY,
    f64::NEG_INFINITY,
    f64::NAN,
];

/// Words around the bounds of flags, choices, counts, bytes and numbers of 8 and 32 bits.
const WORDS: [u64; 21] = [
    0,
    1,
    2,
    3,
    4,
    5,
    7,
    8,
    9,
    15,
    16,
    17,
    255,
    256,
    1 << 31,
    (1 << 32) - 1,
    1 << 32,
    (1 << 32) + 1,
    1 << 63,
    u64::MAX - 1,
    u64::MAX,
];

/// A change of a record, in words: one used field of the counts, the queue, a clock or a channel, or the order of the queue.
pub fn tamper(random: &mut Random, fields: &[Field], record: &mut [u8]) -> String {
    let wanted: fn(Part) -> bool = random.pick(&[
        |part| part == Part::Counts,
        |part| matches!(part, Part::Request(_)),
        |part| matches!(part, Part::Clock(_)),
        |part| matches!(part, Part::Channel(..)),
    ]);
    if random.chance(2) && is_used(Part::Request(1), record) {
        let (first, second) = record[HEAD_BYTES..].split_at_mut(QUEUED_BYTES);
        first.swap_with_slice(&mut second[..QUEUED_BYTES]);
        return "order of the queue".to_string();
    }
    let used = |f: &&Field| is_used(f.part, record);
    let among = fields.iter().filter(|f| wanted(f.part)).filter(used);
    let among: Vec<&Field> = among.collect();
    let field = match among.len() {
        0 => &fields[0],
        length => among[random.index(length)],
    };
    let bytes = other(random, field.kind, field.bytes(record));
    record[field.at..][..bytes.len()].copy_from_slice(&bytes);
    field.words()
}

/// Other bytes of the same kind; near ones and far ones.
fn other(random: &mut Random, kind: Kind, bytes: &[u8]) -> Vec<u8> {
    match kind {
        Kind::Flag => vec![1 - bytes[0]],
        Kind::Choice(choices) => {
            vec![(bytes[0] + 1 + random.below(u64::from(choices) - 1) as u8) % choices]
        }
        Kind::Byte | Kind::Word8 => vec![bytes[0].wrapping_add(random.pick(&[1, 255, 7, 16]))],
        Kind::Word32 | Kind::Word64 => near(random, bytes),
        Kind::Float => random.pick(&FLOATS).to_le_bytes().to_vec(),
    }
}

/// One more, one less, a small number, or one with a high byte.
fn near(random: &mut Random, bytes: &[u8]) -> Vec<u8> {
    let mut word = [0; 8];
    word[..bytes.len()].copy_from_slice(bytes);
    let number = u64::from_le_bytes(word);
    let changed = match random.below(4) {
        0 => number.wrapping_add(1),
        1 => number.wrapping_sub(1),
        2 => random.below(600),
        _ => number ^ 0x8000_0000,
    };
    changed.to_le_bytes()[..bytes.len()].to_vec()
}

/// One bit of one of the applied commands' bytes.
pub fn tamper_journal(random: &mut Random, journal: &mut [u8], applied: usize) {
    if applied > 0 {
        journal[random.index(applied)] ^= 1 << random.below(8);
    }
}

/// Another number at one place of the rows: any place, or one of a row that is not all zero.
pub fn tamper_rows(random: &mut Random, rows: &mut Rows) -> Place {
    let place = if random.chance(50) {
        any_place(random)
    } else {
        used_place(random, rows)
    };
    let bits = rows.bits(place);
    let other = match place {
        Place::Word(..) => other_word(random, bits),
        Place::Float(..) => other_float(random, f64::from_bits(bits)).to_bits(),
    };
    rows.put(place, if other == bits { bits ^ 1 } else { other });
    place
}

fn any_place(random: &mut Random) -> Place {
    let (row, at) = (
        random.index(STATE_WORD_ROWS + STATE_FLOAT_ROWS),
        random.index(8),
    );
    if row < STATE_WORD_ROWS {
        Place::Word(row, at)
    } else {
        Place::Float(row - STATE_WORD_ROWS, at)
    }
}

/// In a row that holds something; as often a word as a float.
fn used_place(random: &mut Random, rows: &Rows) -> Place {
    let words: Vec<usize> = (0..STATE_WORD_ROWS)
        .filter(|row| rows.words[*row] != [0; 8])
        .collect();
    let floats: Vec<usize> = (0..STATE_FLOAT_ROWS)
        .filter(|row| rows.floats[*row] != [0.0; 8])
        .collect();
    let at = random.index(8);
    if random.chance(50) && !words.is_empty() {
        Place::Word(random.pick(&words), at)
    } else {
        Place::Float(random.pick(&floats), at)
    }
}

fn other_word(random: &mut Random, word: u64) -> u64 {
    match random.below(5) {
        0 => random.pick(&WORDS),
        1 => word.wrapping_add(random.pick(&[1, u64::MAX, 1 << 32])),
        2 => word ^ 1 << random.below(64),
        3 => random.below(600),
        _ => random.word(),
    }
}

fn other_float(random: &mut Random, x: f64) -> f64 {
    match random.below(5) {
        0 => random.pick(&FLOATS),
        1 => random.pick(&[x.next_up(), x.next_down(), -x]),
        2 => f64::from_bits(x.to_bits() ^ 1 << random.below(64)),
        3 => random.below(600) as f64,
        _ => f64::from_bits(random.word()),
    }
}
