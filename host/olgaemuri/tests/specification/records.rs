//! The choices, and the bytes of answer and result.

use crate::changes::{changed, floats, range};
use crate::document::table;
use olgaemuri::{ANSWER_BYTES, Answer, Hazard, Policy, Refusal, Tie};

#[test]
fn choices_have_these_bytes_and_names() {
    let hazards = [
        Hazard::Zero,
        Hazard::Constant(1.0),
        Hazard::Gompertz(1.0),
        Hazard::PiecewiseConstant {
            pairs: vec![],
            trailing: 1.0,
        },
        Hazard::Weibull(1.0),
    ];
    let policies = Policy::ALL.map(|policy| ("policy", policy.number(), format!("{policy:?}")));
    let ties = Tie::ALL.map(|tie| ("tie", tie.number(), format!("{tie:?}")));
    let kinds = hazards.map(|hazard| ("kind", hazard.kind(), format!("{hazard:?}")));
    let all = policies.iter().chain(&ties).chain(&kinds);
    let all = all.map(|(choice, byte, shown)| {
        let name = shown.split(['(', ' ']).next().expect("a name");
        vec![*choice, name]
            .into_iter()
            .chain([byte.to_string().leak() as &str])
            .collect()
    });
    let rows = table("| choice | byte | name | meaning |");
    let rows = rows.iter().map(|row| vec![row[0], row[2], row[1]]);
    assert_eq!(rows.collect::<Vec<_>>(), all.collect::<Vec<Vec<&str>>>());
}

#[test]
fn the_answer_s_bytes() {
    let mut answers = [Answer::default(); 9];
    answers[0].refusal = Some(Refusal::InvalidState);
    answers[1].event = true;
    answers[2].censored = true;
    answers[3].withdrawn = true;
    answers[4].cause = u32::MAX;
    answers[5].delta = floats()[0];
    answers[6].ticks = u128::from(u64::MAX);
    answers[7].ticks = u128::from(u64::MAX) << 64;
    answers[8].piece = u8::MAX;
    let names = [
        "number",
        "event",
        "censored",
        "withdrawn",
        "cause",
        "delta",
        "ticks low",
        "ticks high",
        "piece",
    ];
    let none = Answer::default().to_bytes();
    let places = answers.map(|answer| changed(&none, &answer.to_bytes()));
    let rows = table("| byte | width | field | holds |");
    let document: Vec<_> = rows
        .iter()
        .map(|row| (row[2], range(row[0], row[1])))
        .collect();
    let (unused, used) = document.split_last().expect("rows");
    assert_eq!(used, names.into_iter().zip(places).collect::<Vec<_>>());
    assert_eq!(*unused, ("unused", used[8].1.end..ANSWER_BYTES));
}

#[test]
fn the_result_s_bytes() {
    // a DELIVER with nothing queued is refused by 11 and counted, with its one byte; the next byte is no command
    let mut buffers = (
        [0; 8],
        [0; 2 * ANSWER_BYTES],
        [0; olgaemuri_sys::RESULT_BYTES],
    );
    let (journal, answers, result) = (&mut buffers.0, &mut buffers.1, &mut buffers.2);
    assert_eq!(
        olgaemuri_sys::run(&[7, 0], &[], journal, answers, result),
        2
    );
    let rows = table("| byte | width | result field | holds |");
    let expected: [(&str, u64); 2] = [("commands answered", 2), ("bytes read", 1)];
    assert_eq!(rows.len(), expected.len());
    for (row, (name, value)) in rows.iter().zip(expected) {
        assert_eq!(
            (row[2], &result[range(row[0], row[1])]),
            (name, &value.to_le_bytes()[..])
        );
    }
    assert_eq!(range(rows[1][0], rows[1][1]).end, result.len());
}
