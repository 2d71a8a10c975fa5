//! A state in lent memory: where each number lies, which values are coded, and what opening leaves.

use crate::common::{create_clock, reschedule_on, set_on};
use crate::document::{number, table};
use olgaemuri::{ANSWER_BYTES, Answer, Command, Policy};
use olgaemuri_sys::{
    Cause, Clock, Counts, ROW, Request, STATE_FLOAT_ROWS, STATE_WORD_ROWS, cause, clock, counts,
    execute, open, request,
};

const WORDS: &str = "| row of words | place | word | values | holds |";
const FLOATS: &str = "| row of floats | place | float | values | holds |";
pub const DELIVER: [u8; 1] = [7];
pub const INVALID_STATE: u8 = 1;
pub const QUEUE_EMPTY: u8 = 11;

/// One line of a table: its row by clock, channel and request, its places, name and values.
struct Field {
    row: [usize; 4],
    first: usize,
    last: usize,
    name: &'static str,
    values: &'static str,
}

/// What stands before a letter in a sum, or 0; without a letter the numbers that stand alone.
fn factor(sum: &str, letter: &str) -> usize {
    let terms = sum.split(" + ");
    let of = |term: &str| match letter {
        "" => term.parse().ok(),
        _ => match term.strip_suffix(letter)?.trim() {
            "" => Some(1),
            number => number.parse().ok(),
        },
    };
    terms.filter_map(of).sum()
}

fn fields(head: &str) -> Vec<Field> {
    let rows = table(head).into_iter().map(|cells| {
        let (first, last) = cells[1].split_once(" to ").unwrap_or((cells[1], cells[1]));
        Field {
            row: ["", "k", "j", "i"].map(|letter| factor(cells[0], letter)),
            first: number(first),
            last: number(last),
            name: cells[2],
            values: cells[3],
        }
    });
    rows.collect()
}

impl Field {
    /// Its row for each clock, channel and request that it has one for.
    fn rows(&self) -> Vec<usize> {
        let [start, k, j, i] = self.row;
        let times = |factor: usize, count: usize| 0..if factor > 0 { count } else { 1 };
        let mut rows = Vec::new();
        for clock in times(k, 16) {
            for channel in times(j, 8) {
                rows.extend(
                    times(i, 16).map(|request| start + k * clock + j * channel + i * request),
                );
            }
        }
        rows
    }

    /// Every row and place of it.
    fn places(&self) -> Vec<(usize, usize)> {
        let places = |row| (self.first..=self.last).map(move |place| (row, place));
        self.rows().into_iter().flat_map(places).collect()
    }
}

/// A state with its journal.
#[derive(Clone, PartialEq, Debug)]
pub struct Lent {
    pub words: Vec<[u64; ROW]>,
    pub floats: Vec<[u64; ROW]>,
    journal: Vec<u8>,
}

impl Lent {
    pub fn opened() -> Self {
        let mut lent = Self {
            words: vec![[7; ROW]; STATE_WORD_ROWS],
            floats: vec![[7; ROW]; STATE_FLOAT_ROWS],
            journal: vec![7; 1000],
        };
        lent.call(open);
        lent
    }

    /// A call over the rows. The floats are kept as bits, so that all are compared.
    fn call<T>(
        &mut self,
        call: impl FnOnce(&mut [[u64; ROW]], &mut [[f64; ROW]], &mut [u8]) -> T,
    ) -> T {
        let mut floats = self.read_floats();
        let result = call(&mut self.words, &mut floats, &mut self.journal);
        self.floats = floats.iter().map(|row| row.map(f64::to_bits)).collect();
        result
    }

    fn read_floats(&self) -> Vec<[f64; ROW]> {
        self.floats
            .iter()
            .map(|row| row.map(f64::from_bits))
            .collect()
    }

    pub fn number(&mut self, input: &[u8]) -> u8 {
        self.answer(input).number()
    }

    pub fn answer(&mut self, input: &[u8]) -> Answer {
        let stream: Vec<u8> = [2.0_f64, 4.0]
            .iter()
            .flat_map(|value| value.to_le_bytes())
            .collect();
        let mut answer = [0; ANSWER_BYTES];
        self.call(|words, floats, journal| {
            execute(words, floats, &stream, journal, input, &mut answer)
        });
        Answer::from_bytes(&answer).expect("the engine's layout")
    }

    pub fn give(&mut self, command: &Command) {
        assert_eq!(self.number(&command.to_bytes()), 0, "{command}");
    }
}

#[test]
fn the_tables_have_every_place_once() {
    for (head, rows) in [(WORDS, STATE_WORD_ROWS), (FLOATS, STATE_FLOAT_ROWS)] {
        let mut places: Vec<_> = fields(head).iter().flat_map(Field::places).collect();
        places.sort_unstable();
        let all: Vec<_> = (0..rows)
            .flat_map(|row| (0..ROW).map(move |place| (row, place)))
            .collect();
        assert_eq!(places, all);
    }
}

#[test]
fn opening_leaves_zero_and_scales_of_one() {
    let opened = Lent::opened();
    assert!(opened.words.iter().flatten().all(|word| *word == 0));
    let scales: Vec<_> = fields(FLOATS)
        .iter()
        .filter(|field| field.name == "scale")
        .flat_map(Field::places)
        .collect();
    assert_eq!(scales.len(), 16);
    for (row, floats) in opened.floats.iter().enumerate() {
        for (place, bits) in floats.iter().enumerate() {
            let due = if scales.contains(&(row, place)) {
                1.0_f64
            } else {
                0.0
            };
            assert_eq!(*bits, due.to_bits(), "{row} {place}");
        }
    }
}

/// The last coded value and the first that is not, where there is one.
fn edge(values: &str) -> (u64, Option<u64>) {
    match values {
        "any" => (u64::MAX, None),
        "0" => (0, Some(1)),
        "0, 1" => (1, Some(2)),
        "0 to 2" => (2, Some(3)),
        "0 to 4" => (4, Some(5)),
        "below 2^8" => (255, Some(256)),
        "below 2^32" => ((1 << 32) - 1, Some(1 << 32)),
        "+0.0" | "+0.0 with kind 0, else any" => (0, Some((-0.0_f64).to_bits())),
        _ => panic!("{values}"),
    }
}

/// An opened state with this value at a place of the words or floats.
fn opened_with(head: &str, (row, place): (usize, usize), value: u64) -> Lent {
    let mut lent = Lent::opened();
    let rows = if head == WORDS {
        &mut lent.words
    } else {
        &mut lent.floats
    };
    rows[row][place] = value;
    lent
}

/// Of an opened state every clock, channel and request is unused, so that coding alone decides, but for the counts.
fn assert_coded(head: &str, field: &Field, place: (usize, usize)) {
    let (coded, other) = edge(field.values);
    if head == FLOATS || place.0 != 160 {
        let number = opened_with(head, place, coded).number(&DELIVER);
        assert_eq!(number, QUEUE_EMPTY, "{} {place:?}", field.name);
    }
    if let Some(other) = other {
        let mut lent = opened_with(head, place, other);
        let before = lent.clone();
        assert_eq!(lent.number(&DELIVER), INVALID_STATE, "{}", field.name);
        assert_eq!(lent, before);
    }
}

#[test]
fn values_that_are_coded_and_values_that_are_not() {
    for head in [WORDS, FLOATS] {
        for field in fields(head) {
            let places = field.places().into_iter();
            places.for_each(|place| assert_coded(head, &field, place));
        }
    }
}

#[test]
fn a_rate_of_its_own_is_coded_with_the_other_kinds() {
    let fields = fields(WORDS);
    let kinds = fields
        .iter()
        .find(|field| field.name == "kind")
        .unwrap()
        .places();
    let rates: Vec<_> = self::fields(FLOATS)
        .iter()
        .filter(|field| field.name == "rate")
        .flat_map(Field::places)
        .collect();
    for (kind, rate) in kinds.into_iter().zip(rates) {
        for (value, due) in [
            (0, INVALID_STATE),
            (1, QUEUE_EMPTY),
            (2, QUEUE_EMPTY),
            (3, QUEUE_EMPTY),
            (4, QUEUE_EMPTY),
        ] {
            let mut lent = Lent::opened();
            lent.words[kind.0][kind.1] = value;
            lent.floats[rate.0][rate.1] = 0.5_f64.to_bits();
            assert_eq!(lent.number(&DELIVER), due);
        }
    }
}

/// What the calls tell of clock 3, its channel 2 and request 5 under the table's name of a word.
fn told_word(lent: &Lent, name: &str) -> u64 {
    let floats = lent.read_floats();
    let Counts {
        queued,
        requests_made,
        draw_position,
        applied_length,
    } = counts(&lent.words);
    let told: Clock = clock(&lent.words, &floats, 3);
    let channel: Cause = cause(&lent.words, &floats, 3, 2);
    let asked: Request = request(&lent.words, 5);
    match name {
        "present" => u64::from(told.found),
        "process" => told.process,
        "has entity" => u64::from(told.has_entity),
        "entity index" => told.entity_index,
        "generation" => u64::from(told.generation),
        "policy" => u64::from(told.policy),
        "tie" => u64::from(told.tie),
        "causes" => told.causes,
        "has event" => u64::from(told.has_event),
        "event index" => told.event_index,
        "has winner" => u64::from(told.has_winner),
        "winner cause" => u64::from(told.winner_cause),
        "winner piece" => u64::from(told.winner_piece),
        "active" => u64::from(told.is_active),
        "cause" => u64::from(channel.cause),
        "priority" => u64::from(channel.priority),
        "kind" => u64::from(channel.kind),
        "pairs" => channel.pairs,
        "queued" => queued,
        "requests made" => requests_made,
        "draw position" => draw_position,
        "applied length" => applied_length,
        "clock" => asked.clock,
        "ticks low" => asked.ticks_low,
        "ticks high" => asked.ticks_high,
        "request priority" => u64::from(asked.priority as u32),
        "index" => asked.index,
        _ => panic!("{name}"),
    }
}

/// The same of a float, at a place behind its first.
fn told_float(lent: &Lent, name: &str, place: usize) -> f64 {
    let floats = lent.read_floats();
    let told = clock(&lent.words, &floats, 3);
    let channel = cause(&lent.words, &floats, 3, 2);
    match name {
        "scale" => told.scale,
        "winner time" => told.winner_time,
        "last update" => told.last_update,
        "accumulated" => channel.accumulated,
        "threshold" => channel.threshold,
        "interval start" => channel.interval_start,
        "rate" => channel.rate,
        "ends" => channel.ends[place],
        "rates" => channel.rates[place],
        _ => panic!("{name}"),
    }
}

/// A state in which clock 3 is present with eight channels of kind 1, and sixteen requests are queued: enough to be asked for all.
fn full() -> Lent {
    let mut lent = Lent::opened();
    for field in fields(WORDS) {
        let value = match field.name {
            "present" | "kind" => 1,
            "causes" => 8,
            "queued" => 16,
            _ => continue,
        };
        field
            .places()
            .iter()
            .for_each(|(row, place)| lent.words[*row][*place] = value);
    }
    lent
}

#[test]
fn each_number_is_told_where_it_lies() {
    for field in fields(WORDS).iter().filter(|field| field.name != "spare") {
        let [start, k, j, i] = field.row;
        let mut lent = full();
        let word = &mut lent.words[start + 3 * k + 2 * j + 5 * i][field.first];
        // another value than the full state's, and one that is coded
        let coded = edge(field.values).0.min(12);
        let value = if *word == coded { 0 } else { coded };
        *word = value;
        assert_eq!(told_word(&lent, field.name), value, "{}", field.name);
    }
    for field in fields(FLOATS).iter().filter(|field| field.name != "spare") {
        let [start, k, j, _] = field.row;
        for place in field.first..=field.last {
            let mut lent = full();
            lent.floats[start + 3 * k + 2 * j][place] = 0.75_f64.to_bits();
            assert_eq!(
                told_float(&lent, field.name, place - field.first),
                0.75,
                "{}",
                field.name
            );
        }
    }
}

#[test]
fn places_that_are_not_used_any_more_are_as_opening_leaves_them() {
    let mut lent = Lent::opened();
    lent.give(&create_clock(3, Policy::Restart));
    let created = lent.clone();
    lent.give(&set_on(3, 1, 0.5, 0.0));
    lent.give(&reschedule_on(3, 0.0, -1));
    lent.give(&Command::Deliver);
    lent.give(&Command::Remove { clock: 3, cause: 1 });
    let (rows, floats) = (30..40, 75..100);
    assert_eq!(lent.words[rows.clone()], created.words[rows]);
    assert_eq!(lent.floats[floats.clone()], created.floats[floats]);
    assert_eq!(lent.words[161..], Lent::opened().words[161..]);
}
