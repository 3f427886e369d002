//! Slow, literal transcriptions of document 01, to hold the library against.
//! They share no code with it.
#![allow(dead_code)]

pub mod rules;
pub mod slow;

/// Document 01's whole session, with the held answer of T-04.
pub const SESSION: [(&str, &str); 18] = [
    ("N 3 2", "N"),
    ("W 1 1 2", "W 1.1"),
    ("D 2 1 1", "A 1.1"),
    ("R 2 1", "R 2 1.1"),
    ("W 1 1 1", "W 1.2"),
    ("D 2 1 2", "A 1.2"),
    ("W 2 2 1", "W 2.1"),
    ("D 3 2 1", "H 1.1"),
    ("T 3 1 2", "T unknown"),
    ("D 3 1 1", "A 1.1 2.1"),
    ("R 3 1", "R 2 1.1"),
    ("T 3 1 2", "T no"),
    ("D 3 1 2", "A 1.2"),
    ("T 3 1 2", "T yes"),
    ("R 1 2", "R -"),
    ("D 1 1 1", "E 6"),
    ("D 3 1 2", "E 8"),
    ("D 1 2 2", "E 7"),
];

/// The input and the output of the whole session.
pub fn session() -> (Vec<u8>, Vec<u8>) {
    let join = |side: Vec<&str>| (side.join("\n") + "\n").into_bytes();
    (
        join(SESSION.iter().map(|s| s.0).collect()),
        join(SESSION.iter().map(|s| s.1).collect()),
    )
}

/// The answers to a schedule, line by line.
pub fn answers(schedule: &str) -> Vec<String> {
    let out = evidence::text::replay(schedule.as_bytes());
    let out = String::from_utf8(out).expect("answers are ASCII");
    assert!(out.is_empty() || out.ends_with('\n'));
    out.lines().map(str::to_string).collect()
}

/// The answer to the last line.
pub fn last(schedule: &str) -> String {
    answers(schedule).pop().expect("there is a line")
}
