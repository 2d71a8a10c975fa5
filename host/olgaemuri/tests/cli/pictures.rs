//! The pictures are well formed, and their events are the answers' events.

use super::json::{self, Value};
use super::program::{example, olgaemuri, scratch};
use super::xml::{self, Element};
use std::fs;

/// Machine, cause, time's bits, ticks, state, piece.
type Event = (u64, u64, u64, String, String, String);

/// Runs a session: its answers, and its picture.
fn run(session: &[u8], name: &str) -> (Value, Element) {
    let file = scratch(name);
    let path = file.to_str().unwrap();
    let ran = olgaemuri(&["run", "-", "--json", "--svg", path], session);
    assert_eq!((ran.status, ran.err.as_str()), (0, ""));
    let picture = fs::read_to_string(&file).unwrap();
    fs::remove_file(&file).unwrap();
    let picture = xml::parse(&picture).unwrap_or_else(|wrong| panic!("{wrong}\n{picture}"));
    (json::parse(ran.text()).unwrap(), picture)
}

/// The events by the answers of the applied commands alone.
fn answered_events(answers: &[Value]) -> Vec<Event> {
    let mut events: Vec<Event> = Vec::new();
    let mut pending = [None; 16];
    for answer in answers
        .iter()
        .filter(|answer| answer.get("applied").is_true())
    {
        let machine = answer.get("machine").number() as usize;
        let ended = if answer.get("withdrawn").is_true() {
            Some("withdrawn")
        } else {
            None
        };
        let delivered = answer.get("command").text() == "deliver";
        if let Some(state) = ended.or(delivered.then_some("delivered")) {
            let place: usize = pending[machine].take().unwrap();
            events[place].4 = state.to_string();
        }
        if answer.get("event").is_true() && !delivered {
            pending[machine] = Some(events.len());
            let time = answer.get("now").number() + answer.get("delta").number();
            let (cause, ticks) = (
                answer.get("cause").number(),
                answer.get("ticks").text().to_string(),
            );
            let piece = answer.get("piece");
            let piece = (*piece != Value::Null).then(|| piece.number().to_string());
            events.push((
                machine as u64,
                cause as u64,
                time.to_bits(),
                ticks,
                "scheduled".to_string(),
                piece.unwrap_or_default(),
            ));
        }
    }
    events.sort();
    events
}

fn drawn_events(picture: &Element) -> Vec<Event> {
    let of = |element: &Element| {
        let value = |name: &str| element.attributes[&format!("data-{name}")].clone();
        let number = |name: &str| value(name).parse::<u64>().unwrap();
        let time = value("time").parse::<f64>().unwrap().to_bits();
        assert!(!element.child("title").text.is_empty());
        assert_eq!(
            value("censored") == "true",
            number("cause") == u64::from(u32::MAX)
        );
        (
            number("machine"),
            number("cause"),
            time,
            value("ticks"),
            value("state"),
            value("piece"),
        )
    };
    let mut events: Vec<Event> = picture.with_class("event").into_iter().map(of).collect();
    events.sort();
    events
}

fn check(session: &[u8], name: &str) -> Vec<Event> {
    let (answers, picture) = run(session, name);
    let drawn = drawn_events(&picture);
    assert_eq!(
        drawn,
        answered_events(answers.get("answers").array()),
        "{}",
        String::from_utf8_lossy(session)
    );
    drawn
}

#[test]
fn the_examples_events_are_drawn() {
    let count = |events: &[Event], state: &str| events.iter().filter(|e| e.4 == state).count();
    let cases = [
        ("press-shop.session", [7, 5, 2]),
        ("press-shop-before.session", [7, 5, 2]),
        ("press-shop-kept.session", [7, 3, 5]),
    ];
    for (name, counts) in cases {
        let events = check(&example(name), name);
        let found = ["delivered", "scheduled", "withdrawn"].map(|state| count(&events, state));
        assert_eq!(found, counts, "{name}");
    }
}

#[test]
fn undone_edits_are_not_drawn() {
    let pictures = ["press-shop.session", "press-shop-before.session"]
        .map(|name| run(&example(name), "undone").1);
    let [after, before] = pictures;
    assert_eq!(drawn_events(&after), drawn_events(&before));
    let spans = |picture: &Element| -> Vec<Element> {
        picture.with_class("span").into_iter().cloned().collect()
    };
    assert_eq!(spans(&after), spans(&before));
}

#[test]
fn random_sessions_are_drawn_as_they_were_answered() {
    let mut random = 7u64;
    let mut events = 0;
    for index in 0..40 {
        let session = random_session(&mut random);
        events += check(session.as_bytes(), &format!("random-{index}")).len();
    }
    assert!(events > 400, "{events} events");
}

/// Commands to four machines at rising times, a fifth of them undone.
fn random_session(random: &mut u64) -> String {
    let mut below = |limit: u64| {
        *random = random
            .wrapping_mul(6_364_136_223_846_793_005)
            .wrapping_add(1_442_695_040_888_963_407);
        (*random >> 33) % limit
    };
    let thresholds: Vec<String> = (0..90)
        .map(|_| (below(300) as f64 / 100.0).to_string())
        .collect();
    let mut lines = vec![format!("thresholds {}", thresholds.join(" "))];
    for time in 0..90u64 {
        let machine = below(4);
        lines.push(match below(12) {
            0 => format!("create machine={machine} policy=retain scale=10"),
            1..=3 => {
                let (cause, rate) = (below(9), below(50) as f64 / 100.0);
                let hazard = match below(2) {
                    0 => format!("constant rate={rate}"),
                    _ => format!("piecewise pieces=1:{rate},3:0,5:0.1 then=0.2"),
                };
                format!("set machine={machine} cause={cause} now={time} hazard={hazard}")
            }
            4..=6 => format!(
                "reschedule machine={machine} now={time} censor={}",
                time + 40
            ),
            7 => format!("pause machine={machine} now={time}"),
            8 => format!("resume machine={machine} now={time}"),
            9 => "deliver".to_string(),
            _ => "undo".to_string(),
        });
    }
    let creates: Vec<String> = (0..4)
        .map(|machine| format!("create machine={machine} policy=restart scale=10"))
        .collect();
    lines.splice(1..1, creates);
    lines.join("\n")
}

/// A cause whose threshold of 2.5 is used up at 7, in a pause.
const AT_ONCE: &str = "thresholds 2.5
create machine=0 policy=retain scale=1
set machine=0 cause=1 now=0 hazard=piecewise pieces=2:1,5:0 then=0.5
reschedule machine=0 now=0
pause machine=0 now=7
resume machine=0 now=7
";

/// A mark says its piece when it is pointed at, and has its number where the hazard has pieces; so has the legend.
#[test]
fn pieces_are_drawn() {
    let (_, picture) = run(&example("punch-life.session"), "pieces");
    let struck = "punch 1: tool break at 378, tick 22680, piece 3 (rate 0.02 from 200 on); delivered, as scheduled at 163";
    let seal = "punch 2: ram seal at 60, tick 3600; delivered, as scheduled at 0";
    let events = picture.with_class("event").into_iter();
    let titles: Vec<String> = events
        .map(|event| event.child("title").text.clone())
        .collect();
    for title in [struck, seal] {
        assert!(titles.iter().any(|told| told == title), "{titles:?}");
    }
    let words = |class: &str| -> Vec<String> {
        texts(&picture, class)
            .into_iter()
            .map(|text| text.1)
            .collect()
    };
    // the last one is the legend's
    assert_eq!(words("piece"), ["0", "2", "3", "2", "1"]);
    assert_eq!(words("piece-due"), ["0"]);
    let legend = "number: piece of the cause's rate curve, from 0";
    assert_eq!(words("legend").last().map(String::as_str), Some(legend));
    // one with nothing left of its threshold says no piece
    let (_, at_once) = run(AT_ONCE.as_bytes(), "at-once");
    let title = "machine 0: cause 1 at 7, tick 7; scheduled, as scheduled at 7";
    let events = at_once.with_class("event").into_iter();
    assert!(
        events
            .map(|event| &event.child("title").text)
            .any(|told| told == title)
    );
    let (_, without) = run(&example("guide-rails.session"), "no-pieces");
    assert_eq!(texts(&without, "piece"), []);
    assert!(
        !texts(&without, "legend")
            .iter()
            .any(|text| text.1 == legend)
    );
}

#[test]
fn a_picture_on_standard_output_stands_alone() {
    let ran = olgaemuri(&["run", "examples/press-shop.session", "--svg", "-"], b"");
    assert_eq!(xml::parse(ran.text()).unwrap().name, "svg");
}

#[test]
fn odd_names_and_no_machine_at_all() {
    let (_, empty) = run(b"", "empty");
    assert_eq!(drawn_events(&empty), []);
    let odd = "machine 0 \"<a & \\\"b\\\"> \u{7}\"\ncause 1 \"]]>\"\nthresholds 1\ncreate machine=0 policy=retain\n\
        set machine=0 cause=1 now=0 hazard=constant rate=1e-300\nreschedule machine=0 now=0\n";
    assert_eq!(check(odd.as_bytes(), "odd").len(), 1);
}

/// The height and the words of the texts of a class.
fn texts(picture: &Element, class: &str) -> Vec<(f64, String)> {
    let found = picture.with_class(class).into_iter();
    let of = |text: &Element| (text.attributes["y"].parse().unwrap(), text.text.clone());
    found.map(of).collect()
}

#[test]
fn the_label_of_the_last_command_stands_below_the_subtitle() {
    let session = b"thresholds 2 1\ncreate machine=0 policy=retain scale=10\n\
        set machine=0 cause=1 now=0 hazard=constant rate=0.5\nreschedule machine=0 now=0\n";
    let (_, picture) = run(session, "label");
    let subtitle = texts(&picture, "sub")[0].0;
    let labels = texts(&picture, "time");
    let label = labels
        .iter()
        .find(|label| label.1.starts_with("last command"))
        .unwrap();
    // letters of 12 pixels
    assert!(label.0 - 12.0 > subtitle + 3.0, "{label:?} {subtitle}");
}

#[test]
fn long_names_of_machines_can_be_told_apart() {
    let named = |letters: usize| -> Vec<String> {
        let front = "x".repeat(letters);
        let lines = (0..4)
            .map(|n| format!("machine {n} \"{front} {n}\"\ncreate machine={n} policy=retain\n"));
        let (_, picture) = run(
            lines.collect::<String>().as_bytes(),
            &format!("names-{letters}"),
        );
        texts(&picture, "name")
            .into_iter()
            .map(|name| name.1)
            .collect()
    };
    // names of usual length stand whole
    let front = "x".repeat(24);
    assert_eq!(named(24), [0, 1, 2, 3].map(|n| format!("{front} {n}")));
    let mut names = named(200);
    assert!(
        names.iter().all(|name| name.chars().count() <= 40),
        "{names:?}"
    );
    names.dedup();
    assert_eq!(names.len(), 4, "{names:?}");
}
