//! Random schedules: against the slow machine, through the causal checker, and
//! what the generator reaches.

mod common;

use evidence::causal::{check, Report};
use evidence::gen::{odd_image, schedule, schedule_from, schedule_of, worn_image, Kind};
use evidence::image::load;
use evidence::table::{Mark, Table};
use evidence::text::{replay, Reader, Session};
use std::collections::BTreeMap;

/// Every kind of schedule, byte for byte against the slow machine.
#[test]
fn against_the_slow_machine() {
    for kind in Kind::ALL {
        if kind == Kind::Size {
            continue;
        }
        for seed in 0..120 {
            let text = schedule(seed, kind, 10 + (seed as usize * 11) % 190);
            let fast = replay(&text);
            let slow = common::slow::replay(&text).0;
            assert!(
                fast == slow,
                "{kind:?} {seed}: {}",
                first_difference(&fast, &slow)
            );
        }
    }
}

fn first_difference(a: &[u8], b: &[u8]) -> String {
    let (a, b) = (String::from_utf8_lossy(a), String::from_utf8_lossy(b));
    for (at, (a, b)) in a.lines().zip(b.lines()).enumerate() {
        if a != b {
            return format!("line {}: {a} / {b}", at + 1);
        }
    }
    format!("{} / {} lines", a.lines().count(), b.lines().count())
}

/// At least 300 runs with traffic in them pass the causal checker.
#[test]
fn the_causal_checker_accepts() {
    let mut sum = Report::default();
    let mut runs = 0;
    for seed in 0..360 {
        let kind = [Kind::Traffic, Kind::Traffic, Kind::Mixed, Kind::Full][seed as usize % 4];
        let text = schedule(10_000 + seed, kind, 250);
        let report = match check(&text, &replay(&text)) {
            Ok(report) => report,
            Err(fault) => panic!("{kind:?} {seed}: {fault}"),
        };
        runs += usize::from(report.writes > 0);
        sum.writes += report.writes;
        sum.shown += report.shown;
        sum.trips += report.trips;
        sum.applied += report.applied;
        sum.held += report.held;
        sum.released += report.released;
        sum.longest = sum.longest.max(report.longest);
        sum.holds += report.holds;
    }
    assert!(runs >= 300, "{runs}");
    assert!(sum.writes > 10_000 && sum.shown > 10_000, "{sum:?}");
    assert!(sum.held > 5_000 && sum.released > 2_000, "{sum:?}");
    assert!(sum.trips > 1_000 && sum.longest >= 32, "{sum:?}");
    assert_eq!(sum.holds.rare(200), [""; 0], "{}", sum.holds);
    assert_eq!(Report::default().holds.rare(1).len(), 7);
}

/// The answers to a schedule take at most 5 bytes for each of its bytes, and 9
/// for each write that was held before it: so it is line by line, where a write
/// that is held anew is paid for by its own line.
#[test]
fn answers_keep_the_bound() {
    let mut longest = BTreeMap::new();
    for seed in 0..200 {
        for image in [None, Some(worn_image(seed)), Some(odd_image(seed))] {
            let table = image.map(|image| load(&image).unwrap());
            let text = match &table {
                Some(table) => schedule_from(table, seed, 150),
                None => schedule(seed, Kind::Mixed, 300),
            };
            let mut session = table.map_or_else(Session::new, Session::with_table);
            for line in Reader::new(&text) {
                let before = held(session.table());
                let mut answer = Vec::new();
                session.answer(line, &mut answer);
                let paid = 5 * (line.bytes.len() + usize::from(line.ended)) + 9 * before;
                assert!(answer.len() + 9 * held(session.table()) <= paid);
                let most = longest.entry(answer[0]).or_insert(0);
                *most = answer.len().max(*most);
            }
        }
    }
    // Both are met: the longest held answer, and an `A` that its line alone
    // does not pay for.
    assert_eq!(longest[&b'H'], "H 16.65535\n".len());
    assert!(longest[&b'A'] > 5 * "D 1 2 65535\n".len(), "{longest:?}");
}

/// How many writes are held, counted for each desk.
fn held(table: Option<&Table>) -> usize {
    let marks = table.iter().flat_map(|t| t.open_writes().map(|w| w.marks));
    marks.flatten().filter(|&mark| mark == Mark::Held).count()
}

/// Inputs of the largest size, and past it.
#[test]
fn the_largest_inputs() {
    let mut lengths = BTreeMap::new();
    for seed in 0..24 {
        let text = schedule(seed, Kind::Size, 0);
        let out = replay(&text);
        assert_eq!(out == b"E 14\n", text.len() > 65_536);
        let passed = check(&text, &out).map(|r| r.lines > 1_000);
        assert_eq!(passed, Ok(text.len() <= 65_536), "seed {seed}");
        *lengths.entry(text.len().min(65_538)).or_insert(0) += 1;
    }
    let lengths: Vec<usize> = lengths.into_keys().collect();
    assert_eq!(lengths, [65_535, 65_536, 65_537, 65_538]);
}

#[test]
fn the_generator_is_deterministic() {
    for kind in Kind::ALL {
        assert_eq!(Kind::from_name(kind.name()), Some(kind));
        let text = schedule(7, kind, 100);
        assert_eq!(text, schedule(7, kind, 100));
        assert_ne!(text, schedule(8, kind, 100));
        if kind != Kind::Size {
            assert!(text.iter().filter(|&&b| b == b'\n').count() <= 100);
        }
    }
    assert_eq!(Kind::from_name("none"), None);
    // The same bytes on every machine: two schedules by their sums. The second is
    // what the benchmark measures, and is as it was with up to 8 desks.
    let sum = |text: Vec<u8>| {
        text.iter()
            .fold(0u32, |sum, &b| sum.wrapping_mul(31).wrapping_add(b.into()))
    };
    assert_eq!(sum(schedule(1, Kind::Mixed, 300)), 1_390_344_009);
    assert_eq!(sum(schedule(7, Kind::Traffic, 20_000)), 3_239_439_007);
}

/// The generator reaches every answer that text can reach, and every refusal:
/// 4 needs 65,535 writes, 12 and 13 an image.
#[test]
fn the_generator_reaches() {
    let mut seen: BTreeMap<String, usize> = BTreeMap::new();
    for kind in Kind::ALL {
        for seed in 0..30 {
            let out = replay(&schedule(seed, kind, 300));
            for line in String::from_utf8(out).unwrap().lines() {
                let mut parts = line.split(' ');
                let key = match parts.next().unwrap() {
                    "A" => format!("A {}", parts.count().min(3)),
                    "R" => format!("R {}", parts.next().unwrap()),
                    "W" => "W".to_string(),
                    "N" => "N".to_string(),
                    "H" => match parts.next().unwrap().split_once('.').unwrap() {
                        (t, "1") => format!("H {t}.1"),
                        (t, _) => format!("H {t}.more"),
                    },
                    other => format!("{other} {}", parts.next().unwrap()),
                };
                *seen.entry(key).or_default() += 1;
            }
        }
    }
    let mut expect: Vec<String> = ["N", "W", "R -", "R 0", "R 1", "R 2", "A 1", "A 2", "A 3"]
        .into_iter()
        .chain(["T yes", "T no", "T unknown"])
        .map(str::to_string)
        .collect();
    expect.extend((1..=16).flat_map(|t| [format!("H {t}.1"), format!("H {t}.more")]));
    expect.extend([1, 2, 3, 5, 6, 7, 8, 9, 10, 11, 14].map(|e| format!("E {e}")));
    expect.sort();
    let keys: Vec<String> = seen.keys().cloned().collect();
    assert_eq!(keys, expect);
    assert!(seen["E 5"] > 100 && seen["E 14"] >= 3, "{seen:?}");
}

/// Schedules of every number of desks: of each kind that has several, a fair
/// share with 9 to 16, some with just 9, 16, and a 17 that is refused.
#[test]
fn the_generator_reaches_sixteen_desks() {
    for kind in Kind::ALL {
        let mut desks = BTreeMap::new();
        let mut refused = 0;
        for seed in 0..120 {
            let text = schedule(seed, kind, 60);
            let mut session = Session::new();
            for line in Reader::new(&text) {
                let mut answer = Vec::new();
                session.answer(line, &mut answer);
                refused += usize::from(line.bytes.starts_with(b"N 17 ") && answer == b"E 11\n");
            }
            let n = session.table().map_or(0, Table::desks);
            *desks.entry(n).or_insert(0) += 1;
        }
        let many: usize = desks.range(9..).map(|(_, count)| count).sum();
        match kind {
            Kind::Single => assert_eq!(desks.into_keys().collect::<Vec<_>>(), [1]),
            _ => {
                assert!((35..=85).contains(&many), "{kind:?}: {desks:?}");
                assert!(desks[&9] >= 5 && desks[&16] >= 5, "{kind:?}: {desks:?}");
                assert!(desks.range(10..16).count() >= 5, "{kind:?}: {desks:?}");
            }
        }
        if matches!(kind, Kind::HalfTyped | Kind::Edges) {
            assert!(refused >= 5, "{kind:?}: {refused}");
        }
    }
}

/// A number of desks that is asked for is what comes.
#[test]
fn schedules_of_so_many_desks() {
    for kind in Kind::ALL.into_iter().filter(|&kind| kind != Kind::Single) {
        for desks in [2, 8, 9, 16] {
            let text = schedule_of(5, kind, 80, Some(desks));
            let mut session = Session::new();
            for line in Reader::new(&text) {
                session.answer(line, &mut Vec::new());
            }
            // This seed's `Mixed` is none of one desk.
            let found = session.table().map(|t| usize::from(t.desks()));
            assert_eq!(found, Some(desks), "{kind:?}");
        }
    }
}

/// Half-typed files have long lines of just 128 and 129 bytes, CR, double
/// spaces, and a missing last LF.
#[test]
fn half_typed_files_have_it_all() {
    let mut seen = BTreeMap::new();
    for seed in 0..60 {
        let text = schedule(seed, Kind::HalfTyped, 200);
        let has = |part: &[u8]| text.windows(part.len()).any(|w| w == part);
        let length = |l| text.split(|&b| b == b'\n').any(|line| line.len() == l);
        for (what, here) in [
            ("128", length(128)),
            ("129", length(129)),
            ("cr", has(b"\r\n")),
            ("double space", has(b"  ")),
            ("no last lf", text.last() != Some(&b'\n')),
            ("empty line", has(b"\n\n")),
            ("65536", has(b" 65536")),
            ("not ascii", !text.is_ascii()),
            ("nul", text.contains(&0)),
        ] {
            *seen.entry(what).or_insert(0) += usize::from(here);
        }
    }
    assert!(seen.values().all(|&count| count >= 5), "{seen:?}");
}

/// Runs of `Full` meet 64 open writes, are refused, and are accepted again.
#[test]
fn full_runs_free_entries_again() {
    for seed in 0..40 {
        let out = String::from_utf8(replay(&schedule(seed, Kind::Full, 400))).unwrap();
        let refused = out.find("E 5\n").expect("64 are open");
        assert!(out[refused..].contains("\nW "), "seed {seed}");
    }
}

/// Runs of `Single` are never refused with 5.
#[test]
fn single_runs_never_meet_5() {
    for seed in 0..40 {
        let out = String::from_utf8(replay(&schedule(seed, Kind::Single, 400))).unwrap();
        assert!(out.matches("W 1.").count() > 64 && !out.contains("E 5\n"));
        assert!(!out.contains("A ") && !out.contains("H "));
    }
}
