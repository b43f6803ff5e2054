//! `why` in a script: the answers in words, on the independent engine and, as the built program, on the
//! proved one.

mod common;

use cli::play::play;
use common::{examples, program_on, Independent};

/// What both engines print for a script whose lines can be read.
fn played(script: &str) -> String {
    let mut out = Vec::new();
    let read = play(
        script.as_bytes(),
        &examples(),
        &mut Independent::new(),
        &mut out,
    );
    assert!(matches!(read, Ok(true)));
    let (status, by_program, _) = program_on(&["play", "-"], script.as_bytes());
    assert_eq!(status, 0);
    assert!(out == by_program);
    String::from_utf8(out).expect("it prints text")
}

/// The lines of an answer that are none to a command.
fn sentences(text: &str) -> Vec<&str> {
    text.lines()
        .filter(|line| !line.ends_with(": ok"))
        .collect()
}

#[test]
fn each_reason_in_words() {
    let text = played(
        "why -1\n/d_recv ping.scsyndef\n/g_new 1 1 0\n/g_new 2 1 1\n/s_new ping 10 1 2\n\
         /s_new ping 11 1 1\n/s_new ping -1 1 0\nwhy 10\nwhy 11\nwhy -8\nwhy -1\n/n_run 10 0\nwhy 10\n\
         why 11\n/n_run 2 0\nwhy 10\n/n_run 10 1\nwhy 10\n/n_run 1 0\nwhy 10\nwhy 11\nwhy -1\n\
         /n_run 0 0\nwhy 10\nwhy -8\nwhy -1\n/n_run -1 0\nwhy -1\nwhy 0\nwhy 2\nwhy 3\nwhy -9\nwhy -2\n\
         why 2147483647\nwhy -2147483648\n/n_free -1\nwhy -1\nwhy -8\n",
    );
    assert_eq!(
        sentences(&text),
        [
            "there is no latest synth",
            "10 runs, 1st of 3",
            "11 runs, 2nd of 3",
            "-8 runs, 3rd of 3",
            "-8, the latest synth, runs, 3rd of 3",
            "10 is silent: it is off",
            "11 runs, 1st of 2",
            "10 is silent: it is off",
            "10 is silent: group 2 above it is off",
            "10 is silent: group 1 above it is off",
            "11 is silent: group 1 above it is off",
            "-8, the latest synth, runs, 1st of 1",
            "10 is silent: the root is off",
            "-8 is silent: the root is off",
            "-8, the latest synth, is silent: the root is off",
            "-8, the latest synth, is silent: it is off",
            "0 is a group",
            "2 is a group",
            "there is no node 3",
            "there is no node -9",
            "there is no node -2",
            "there is no node 2147483647",
            "there is no node -2147483648",
            "there is no latest synth",
            "there is no node -8",
        ]
    );
}

#[test]
fn places_in_words() {
    let places = [
        (1, "1st"),
        (2, "2nd"),
        (3, "3rd"),
        (4, "4th"),
        (10, "10th"),
        (11, "11th"),
        (12, "12th"),
        (13, "13th"),
        (14, "14th"),
        (20, "20th"),
        (21, "21st"),
        (22, "22nd"),
        (23, "23rd"),
        (100, "100th"),
        (101, "101st"),
        (111, "111th"),
        (112, "112th"),
        (113, "113th"),
        (122, "122nd"),
        (212, "212th"),
        (255, "255th"),
    ];
    let mut script = "/d_recv ping.scsyndef\n".to_string();
    let synths = (1..=255).map(|number| format!("/s_new ping {number} 1 0\n"));
    let questions = places.map(|(number, _)| format!("why {number}\n"));
    script.extend(synths.chain(questions));
    let text = played(&script);
    let expected = places.map(|(number, place)| format!("{number} runs, {place} of 255"));
    assert_eq!(sentences(&text), expected);
}
