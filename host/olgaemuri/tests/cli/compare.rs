//! `olgaemuri compare`: its exit status says whether the lists of breakdowns are the same.

use super::program::{example, olgaemuri, scratch};
use std::fs;

const BEFORE: &str = "examples/press-shop-before.session";
const AFTER: &str = "examples/press-shop.session";
const KEPT: &str = "examples/press-shop-kept.session";

#[test]
fn three_undos_give_every_breakdown_back() {
    let ran = olgaemuri(&["compare", BEFORE, AFTER], b"");
    assert_eq!(ran.status, 0);
    assert!(
        ran.text()
            .contains("Thresholds drawn: 16 left, 16 right.\n")
    );
    assert!(
        ran.text()
            .ends_with("The lists of breakdowns are the same: 12 events, to the last bit.\n")
    );
}

#[test]
fn edits_that_are_kept_change_the_list() {
    let ran = olgaemuri(&["compare", BEFORE, KEPT], b"");
    assert_eq!(ran.status, 1);
    assert!(ran.text().contains("<>"));
    assert!(
        ran.text()
            .ends_with("The lists of breakdowns differ in 9 of 12 places.\n")
    );
}

#[test]
fn a_list_of_another_length_differs() {
    let ran = olgaemuri(&["compare", AFTER, "-"], b"# nothing\n");
    assert_eq!(ran.status, 1);
    assert!(
        ran.text()
            .ends_with("The lists of breakdowns differ in 12 of 12 places.\n")
    );
    let ran = olgaemuri(&["compare", "-", AFTER], &example("press-shop.session"));
    assert_eq!(ran.status, 0);
}

/// One machine with one cause and one breakdown after 4 hours.
const ONE: &str = "thresholds 2\ncreate machine=0 policy=retain scale=10\n\
    set machine=0 cause=1 now=0 hazard=constant rate=0.5\nreschedule machine=0 now=0\n";

#[test]
fn the_last_bit_counts_and_names_do_not() {
    let file = scratch("one.session");
    fs::write(&file, ONE).unwrap();
    let same = format!("machine 0 \"press\"\ncause 1 \"seal\"\n{ONE}pause machine=0 now=1\nundo\n");
    let cases = [
        (0, same),
        (1, ONE.replace("rate=0.5", "rate=0.50000000000000011")),
        (1, ONE.replace("cause=1", "cause=2")),
        (1, ONE.replace("machine=0", "machine=1")),
        (1, ONE.replace("scale=10", "scale=20")),
        (1, format!("{ONE}deliver\n")),
    ];
    for (status, session) in cases {
        let words = ["compare", file.to_str().unwrap(), "-"];
        let ran = olgaemuri(&words, session.as_bytes());
        assert_eq!(ran.status, status, "{session}\n{}", ran.text());
    }
    fs::remove_file(&file).unwrap();
}

#[test]
fn a_bad_file_is_no_difference() {
    let ran = olgaemuri(&["compare", AFTER, "-"], b"undo 1\n");
    assert_eq!(ran.status, 2);
    assert!(
        ran.err
            .starts_with("standard input:1:6: expected an operand name=value")
    );
    assert_eq!(olgaemuri(&["compare", AFTER], b"").status, 2);
    assert_eq!(olgaemuri(&["compare", "-", "-"], b"").status, 2);
}

#[test]
fn both_sides_stand_below_each_other_where_there_is_little_room() {
    let ran = olgaemuri(&["compare", BEFORE, KEPT, "--width", "80"], b"");
    assert_eq!(ran.status, 1);
    for expected in [
        "no     machine        cause             at  tick  state\n",
        "\n 1  =  punch 2        clutch       15.8333   950  delivered\n",
        "\n 3  <  punch 1        tool break        69  4140  delivered\n 3  >  press brake 2  ram seal",
    ] {
        assert!(ran.text().contains(expected), "{expected}\n{}", ran.text());
    }
    assert!(ran.text().lines().all(|line| line.chars().count() <= 80));
    let wide = olgaemuri(&["compare", BEFORE, KEPT, "--width", "200"], b"");
    assert_eq!(wide.out, olgaemuri(&["compare", BEFORE, KEPT], b"").out);
}
