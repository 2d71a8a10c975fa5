//! The fields of a state: where each stands in the record and lies in the rows, what it holds, and its name.

use olgaemuri_sys::{STATE_FLOAT_ROWS, STATE_WORD_ROWS};
use reference::clock::CHANNELS;
use reference::command_fields::CLOCKS;
use reference::hazard::{PAIRS, WEIBULL};
use reference::record::{SLOT_BYTES, SLOTS_AT};
use reference::validation::QUEUE;

#[derive(Clone, Copy, Debug, PartialEq)]
pub enum Kind {
    Flag,
    /// One of so many choices.
    Choice(u8),
    /// A small number, for which any word is coded.
    Byte,
    Word8,
    Word32,
    Word64,
    Float,
}

impl Kind {
    pub fn width(self) -> usize {
        match self {
            Kind::Flag | Kind::Choice(_) | Kind::Byte | Kind::Word8 => 1,
            Kind::Word32 => 4,
            Kind::Word64 | Kind::Float => 8,
        }
    }
}

/// The kind of a hazard; no other field has so many choices.
pub const HAZARD_KIND: Kind = Kind::Choice(WEIBULL + 1);

/// A number of the rows: which row, and which of its eight.
#[derive(Clone, Copy, Debug, PartialEq)]
pub enum Place {
    Word(usize, usize),
    Float(usize, usize),
}

impl Place {
    /// The same place further on.
    fn after(self, words: usize, floats: usize) -> Self {
        match self {
            Place::Word(row, at) => Place::Word(words + row, at),
            Place::Float(row, at) => Place::Float(floats + row, at),
        }
    }
}

/// The rows of a clock, and those that the counts and the queue begin with.
const CLOCK_WORDS: usize = 10;
const CLOCK_FLOATS: usize = 25;
const COUNTS_ROW: usize = 160;
const QUEUE_ROW: usize = 161;

/// Which part of the state a field belongs to.
#[derive(Clone, Copy, Debug, PartialEq)]
pub enum Part {
    Counts,
    Request(usize),
    Clock(usize),
    Channel(usize, usize),
}

impl Part {
    /// Its first row of words and of floats.
    fn rows(self) -> (usize, usize) {
        match self {
            Part::Counts => (COUNTS_ROW, 0),
            Part::Request(place) => (QUEUE_ROW + place, 0),
            Part::Clock(clock) => (CLOCK_WORDS * clock, CLOCK_FLOATS * clock),
            Part::Channel(clock, place) => (
                CLOCK_WORDS * clock + 2 + place,
                CLOCK_FLOATS * clock + 1 + 3 * place,
            ),
        }
    }
}

#[derive(Clone, Debug)]
pub struct Field {
    /// In the record.
    pub at: usize,
    /// In the rows.
    pub place: Place,
    pub kind: Kind,
    pub part: Part,
    name: &'static str,
}

impl Field {
    /// Whether this is the field of a part by its name.
    pub fn is(&self, part: Part, name: &str) -> bool {
        self.part == part && self.name == name
    }

    /// In words: the field, and the clock, channel or place of the queue that it belongs to.
    pub fn words(&self) -> String {
        let name = self.name;
        match self.part {
            Part::Counts => name.to_string(),
            Part::Request(place) => format!("{name} of the request at place {place}"),
            Part::Clock(clock) => format!("{name} of clock {clock}"),
            Part::Channel(clock, place) => format!("{name} of channel {place} of clock {clock}"),
        }
    }

    pub fn bytes<'a>(&self, record: &'a [u8]) -> &'a [u8] {
        &record[self.at..][..self.kind.width()]
    }

    /// What a record holds, as a word; a float's bits.
    pub fn bits(&self, record: &[u8]) -> u64 {
        let bytes = self.bytes(record);
        let mut word = [0; 8];
        word[..bytes.len()].copy_from_slice(bytes);
        u64::from_le_bytes(word)
    }
}

/// A field of a part: its place is told from the part's first rows.
type Row = (Kind, &'static str, Place);

const fn word(kind: Kind, name: &'static str, row: usize, at: usize) -> Row {
    (kind, name, Place::Word(row, at))
}

const fn float(name: &'static str, row: usize, at: usize) -> Row {
    (Kind::Float, name, Place::Float(row, at))
}

const COUNTS: [Row; 4] = [
    word(Kind::Word64, "draw position", 0, 2),
    word(Kind::Word64, "applied length", 0, 3),
    word(Kind::Word64, "request counter", 0, 1),
    word(Kind::Word64, "queue length", 0, 0),
];

const REQUEST: [Row; 5] = [
    word(Kind::Byte, "clock", 0, 0),
    word(Kind::Word64, "index", 0, 4),
    word(Kind::Word64, "ticks, low word", 0, 1),
    word(Kind::Word64, "ticks, high word", 0, 2),
    word(Kind::Word32, "priority", 0, 3),
];

const CLOCK_HEAD: [Row; 9] = [
    word(Kind::Flag, "presence", 0, 0),
    word(Kind::Word64, "process", 0, 1),
    word(Kind::Flag, "has-entity", 0, 2),
    word(Kind::Word64, "entity index", 0, 3),
    word(Kind::Word32, "entity generation", 0, 4),
    word(Kind::Choice(2), "policy", 0, 5),
    word(Kind::Choice(3), "tie", 0, 6),
    float("scale", 0, 0),
    word(Kind::Byte, "channel count", 0, 7),
];

const CHANNEL_HEAD: [Row; 5] = [
    word(Kind::Word32, "cause", 0, 0),
    word(Kind::Word32, "priority", 0, 1),
    word(HAZARD_KIND, "kind", 0, 2),
    float("first", 0, 3),
    word(Kind::Byte, "pair count", 0, 3),
];

const CHANNEL_TAIL: [Row; 3] = [
    float("accumulated hazard", 0, 0),
    float("threshold", 0, 1),
    float("interval start", 0, 2),
];

const CLOCK_TAIL: [Row; 8] = [
    word(Kind::Flag, "scheduled", 1, 0),
    word(Kind::Word64, "scheduled index", 1, 1),
    word(Kind::Flag, "has-winner", 1, 2),
    word(Kind::Word32, "winner's cause", 1, 3),
    float("winner's time", 0, 1),
    word(Kind::Flag, "active flag", 1, 4),
    float("last update time", 0, 2),
    word(Kind::Word8, "winner's piece", 1, 5),
];

/// Pair `i` of a channel.
fn pair(i: usize) -> [Row; 2] {
    [float("end", 1, i), float("rate", 2, i)]
}

fn add(fields: &mut Vec<Field>, part: Part, rows: &[Row]) {
    let (words, floats) = part.rows();
    for (kind, name, place) in rows.iter().copied() {
        let at = fields.last().map_or(0, |f| f.at + f.kind.width());
        fields.push(Field {
            at,
            place: place.after(words, floats),
            kind,
            part,
            name,
        });
    }
}

/// The fields of a state, and the places of the rows that no field takes.
pub struct Layout {
    pub fields: Vec<Field>,
    pub spare: Vec<Place>,
}

impl Layout {
    pub fn new() -> Self {
        let fields = fields();
        let taken = |place: &Place| fields.iter().any(|f| f.place == *place);
        let spare = places().filter(|place| !taken(place)).collect();
        Self { fields, spare }
    }

    /// A number of the rows, in words.
    pub fn words(&self, place: Place) -> String {
        match self.fields.iter().find(|f| f.place == place) {
            Some(field) => field.words(),
            None => format!("spare {place:?}"),
        }
    }
}

/// Every number of the rows.
pub fn places() -> impl Iterator<Item = Place> {
    let words = (0..STATE_WORD_ROWS).flat_map(|row| (0..8).map(move |at| Place::Word(row, at)));
    let floats = (0..STATE_FLOAT_ROWS).flat_map(|row| (0..8).map(move |at| Place::Float(row, at)));
    words.chain(floats)
}

/// The place of the applied length.
pub const APPLIED_LENGTH: Place = Place::Word(COUNTS_ROW, 3);

/// Every field, in the record's order.
fn fields() -> Vec<Field> {
    let mut all = Vec::new();
    add(&mut all, Part::Counts, &COUNTS);
    for place in 0..QUEUE {
        add(&mut all, Part::Request(place), &REQUEST);
    }
    for clock in 0..CLOCKS {
        add(&mut all, Part::Clock(clock), &CLOCK_HEAD);
        for place in 0..CHANNELS {
            let part = Part::Channel(clock, place);
            add(&mut all, part, &CHANNEL_HEAD);
            (0..PAIRS).for_each(|i| add(&mut all, part, &pair(i)));
            add(&mut all, part, &CHANNEL_TAIL);
        }
        add(&mut all, Part::Clock(clock), &CLOCK_TAIL);
    }
    all
}

/// Whether a part is used in a record: its clock is there, its place below the count.
pub fn is_used(part: Part, record: &[u8]) -> bool {
    let slot = |clock: usize| &record[SLOTS_AT + clock * SLOT_BYTES..][..SLOT_BYTES];
    match part {
        Part::Counts => true,
        Part::Request(place) => place < usize::from(record[24]),
        Part::Clock(clock) => slot(clock)[0] == 1,
        Part::Channel(clock, place) => slot(clock)[0] == 1 && place < usize::from(slot(clock)[32]),
    }
}

#[cfg(test)]
mod tests {
    use super::*;
    use reference::dump::{CHANNEL_BYTES, QUEUED_BYTES};
    use reference::record::{HEAD_BYTES, STATE_BYTES};

    #[test]
    fn the_fields_fill_the_record() {
        let all = fields();
        let last = all.last().expect("a field");
        assert_eq!(last.at + last.kind.width(), STATE_BYTES);
        let at = |part| all.iter().find(|f| f.part == part).map(|f| f.at);
        assert_eq!(at(Part::Request(1)), Some(HEAD_BYTES + QUEUED_BYTES));
        assert_eq!(at(Part::Clock(1)), Some(SLOTS_AT + SLOT_BYTES));
        let channel = SLOTS_AT + 33 + CHANNEL_BYTES;
        assert_eq!(at(Part::Channel(0, 1)), Some(channel));
    }

    #[test]
    fn fields_and_spare_places_fill_the_rows() {
        let layout = Layout::new();
        let spare = 16 * (2 + 5 + 8 * (4 + 4)) + 4 + 16 * 3;
        assert_eq!(layout.spare.len(), spare);
        assert_eq!(layout.fields.len() + spare, places().count());
        let mut places: Vec<Place> = layout.fields.iter().map(|f| f.place).collect();
        places.sort_by_key(|place| format!("{place:?}"));
        places.dedup();
        assert_eq!(places.len(), layout.fields.len());
    }
}
