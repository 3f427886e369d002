//! Tests of the causal checker with deliberately wrong machines, so that a
//! check that cannot fail is ruled out.

use crate::causal::{check, Fault, FaultKind};
use crate::gen::{schedule, schedule_of, Kind};
use crate::image::{keeps_rules, save};
use crate::table::{Name, Table, Variant, MAX_DESKS};
use crate::text::{replay, replay_in, Reader, Session};
use crate::Refusal;
use std::collections::BTreeMap;

/// What a wrong machine names in a held answer.
#[derive(Clone, Copy, Debug, PartialEq, Eq)]
pub(crate) enum Misnamed {
    /// The write at the vector's place.
    VectorPlace,
    /// The last one applied: the count itself.
    Count,
    /// The next but one.
    NextButOne,
    /// The first of all, applied or not.
    First,
    /// The next one of the writer.
    Writer,
    /// The next one of the largest desk whose place fails.
    LargestDesk,
}

impl Misnamed {
    /// The name in the place of `right`, where entry s is held at desk place i.
    pub(crate) fn name(self, table: &Table, i: usize, s: usize, right: Name) -> Name {
        let numbered = |number| Name { number, ..right };
        let e = &table.entries[s];
        let u = e.writer as usize - 1;
        let fails = |t: usize| e.vector[t] > table.desks[i].applied[t] + u16::from(t == u);
        match self {
            Misnamed::VectorPlace => numbered(e.vector[right.desk as usize - 1]),
            Misnamed::Count => numbered(right.number - 1),
            Misnamed::NextButOne => numbered(right.number + 1),
            Misnamed::First => numbered(1),
            Misnamed::Writer => table.next_of(u, i),
            Misnamed::LargestDesk => (0..MAX_DESKS)
                .rfind(|&t| fails(t))
                .map_or(right, |t| table.next_of(t, i)),
        }
    }
}

const WRONG: [Variant; 18] = [
    Variant::JoinOnApply,
    Variant::AtLeastOneAbove,
    Variant::OneHeldAndStop,
    Variant::UnsetAsOne,
    Variant::UnsetAsZero,
    Variant::FreeWhenReceived,
    Variant::ReadForgets,
    Variant::TripForgets,
    Variant::ReadyByEight,
    Variant::ReadJoinsEight,
    Variant::AppliesEight,
    Variant::SearchesEight,
    Variant::Misnames(Misnamed::VectorPlace),
    Variant::Misnames(Misnamed::Count),
    Variant::Misnames(Misnamed::NextButOne),
    Variant::Misnames(Misnamed::First),
    Variant::Misnames(Misnamed::Writer),
    Variant::Misnames(Misnamed::LargestDesk),
];

/// What a wrong machine answers.
fn answers(schedule: &[u8], variant: Option<Variant>) -> Vec<u8> {
    let mut session = Session::new();
    session.variant = variant;
    replay_in(session, schedule)
}

/// Document 01's session is right, and each of these short ones goes wrong at
/// the line and for the reason given.
#[test]
fn each_shortcut_is_rejected_where_it_shows() {
    let cases: [(Variant, &str, usize, FaultKind); 13] = [
        // 2.1 would wait for 1.2, which desk 2 applied and did not read.
        (
            Variant::JoinOnApply,
            "N 3 2\nW 1 1 2\nD 2 1 1\nW 2 2 1\nD 3 2 1\n",
            5,
            FaultKind::HeldForNothing,
        ),
        (
            Variant::AtLeastOneAbove,
            "N 2 1\nW 1 1 1\nW 1 1 2\nD 2 1 2\n",
            4,
            FaultKind::WriteNotEarlier,
        ),
        (
            Variant::OneHeldAndStop,
            "N 2 1\nW 1 1 1\nW 1 1 2\nW 1 1 0\nD 2 1 3\nD 2 1 2\nD 2 1 1\n",
            7,
            FaultKind::HeldForNothing,
        ),
        (
            Variant::UnsetAsOne,
            "N 2 2\nW 1 1 1\nT 1 1 2\n",
            3,
            FaultKind::Verdict,
        ),
        (Variant::UnsetAsZero, "N 2 2\nR 2 1\n", 2, FaultKind::Read),
        // 1.2 is received everywhere and held; it is lost.
        (
            Variant::FreeWhenReceived,
            "N 2 1\nW 1 1 1\nW 1 1 2\nD 2 1 2\nD 2 1 1\n",
            5,
            FaultKind::HeldForNothing,
        ),
        (
            Variant::ReadForgets,
            "N 3 2\nW 1 1 1\nD 2 1 1\nR 2 1\nW 2 2 1\nD 3 2 1\n",
            6,
            FaultKind::WriteNotEarlier,
        ),
        (
            Variant::TripForgets,
            "N 3 2\nW 1 1 1\nD 2 1 1\nT 2 1\nW 2 2 1\nD 3 2 1\n",
            6,
            FaultKind::WriteNotEarlier,
        ),
        // What needs desk 9 or a larger one.
        (
            Variant::ReadyByEight,
            "N 16 2\nW 16 1 1\nD 2 16 1\nR 2 1\nW 2 2 1\nD 3 2 1\n",
            6,
            FaultKind::WriteNotEarlier,
        ),
        (
            Variant::ReadyByEight,
            "N 9 1\nW 9 1 1\nW 9 1 2\nD 1 9 2\n",
            4,
            FaultKind::WriteNotEarlier,
        ),
        (
            Variant::ReadJoinsEight,
            "N 9 2\nW 9 1 1\nD 2 9 1\nR 2 1\nW 2 2 1\nD 3 2 1\n",
            6,
            FaultKind::WriteNotEarlier,
        ),
        (
            Variant::AppliesEight,
            "N 9 1\nW 9 1 1\nD 2 9 1\nR 2 1\n",
            4,
            FaultKind::Read,
        ),
        (
            Variant::SearchesEight,
            "N 10 1\nW 10 1 1\nW 10 1 2\nD 1 10 2\nD 1 10 1\n",
            5,
            FaultKind::HeldForNothing,
        ),
    ];
    for (variant, text, line, kind) in cases {
        goes_wrong(variant, text, line, kind);
    }
}

/// The right machine passes, and a wrong one is rejected for this fault.
fn goes_wrong(variant: Variant, text: &str, line: usize, kind: FaultKind) {
    let right = replay(text.as_bytes());
    assert!(check(text.as_bytes(), &right).is_ok(), "{variant:?}");
    let wrong = answers(text.as_bytes(), Some(variant));
    assert_ne!(right, wrong, "{variant:?}");
    let fault = Err(Fault { line, kind });
    assert_eq!(check(text.as_bytes(), &wrong), fault, "{variant:?}");
}

/// Every misnamed write is rejected, at the last line of each.
#[test]
fn each_misnamed_write_is_rejected_where_it_shows() {
    use FaultKind::*;
    use Misnamed::*;
    // Desk 2 has read 1.2 and then written twice; desk 3 has received nothing.
    let read = "N 3 2\nW 1 1 1\nW 1 1 2\nD 2 1 1\nD 2 1 2\nR 2 1\nW 2 2 1\nW 2 2 2\n";
    for (how, rest, kind) in [
        (VectorPlace, "D 3 2 1\n", HoldNotFirst),
        // The writer's place has the delivered write itself.
        (VectorPlace, "D 3 1 2\n", HoldNotBefore),
        (Count, "D 3 2 1\n", HoldUnknown),
        (Count, "D 3 1 1\nD 3 2 1\n", HoldApplied),
        (NextButOne, "D 3 2 1\n", HoldNotFirst),
        (NextButOne, "D 3 1 1\nD 3 2 1\n", HoldUnknown),
        (NextButOne, "W 1 1 0\nD 3 1 1\nD 3 2 1\n", HoldNotBefore),
        (First, "D 3 1 1\nD 3 2 1\n", HoldApplied),
        (First, "D 3 2 1\nD 3 1 1\nD 3 2 2\n", HoldAgain),
        (Writer, "D 3 2 1\n", HoldNotBefore),
        (Writer, "D 3 2 2\n", HoldDesk),
        (LargestDesk, "D 3 2 2\n", HoldDesk),
    ] {
        let text = format!("{read}{rest}");
        goes_wrong(Variant::Misnames(how), &text, text.lines().count(), kind);
    }
}

/// Of the five demands on the write that `H` names, each can fail alone.
#[test]
fn each_demand_on_a_hold_fails_alone() {
    // The answer to the last line, and a wrong one.
    for (text, right, wrong, kind) in [
        // Desk 1 has written nothing.
        (
            "N 3 1\nW 2 1 1\nW 2 1 2\nD 3 2 2\n",
            "H 2.1\n",
            "H 1.1\n",
            FaultKind::HoldUnknown,
        ),
        // Nobody has read 1.1.
        (
            "N 3 1\nW 1 1 1\nW 2 1 1\nW 2 1 2\nD 3 2 2\n",
            "H 2.1\n",
            "H 1.1\n",
            FaultKind::HoldNotBefore,
        ),
        (
            "N 2 1\nW 1 1 1\nW 1 1 1\nW 1 1 1\nD 2 1 1\nD 2 1 3\n",
            "H 1.2\n",
            "H 1.1\n",
            FaultKind::HoldApplied,
        ),
        (
            "N 2 1\nW 1 1 1\nW 1 1 1\nW 1 1 1\nD 2 1 3\n",
            "H 1.1\n",
            "H 1.2\n",
            FaultKind::HoldNotFirst,
        ),
        (
            "N 3 1\nW 1 1 1\nD 2 1 1\nR 2 1\nW 2 1 1\nW 2 1 2\nD 3 2 2\n",
            "H 1.1\n",
            "H 2.1\n",
            FaultKind::HoldDesk,
        ),
    ] {
        let (forged, line) = (forged(text, right, wrong), text.lines().count());
        let fault = Err(Fault { line, kind });
        assert_eq!(check(text.as_bytes(), &forged), fault, "{text}");
        let alone = Some(Err((line, vec![kind])));
        assert_eq!(literal::check(text.as_bytes(), &forged), alone, "{text}");
    }
}

/// The answers to a text with another one to its last line.
fn forged(text: &str, right: &str, wrong: &str) -> Vec<u8> {
    let answers = replay(text.as_bytes());
    assert!(check(text.as_bytes(), &answers).is_ok(), "{text}");
    let before = (answers.strip_suffix(right.as_bytes())).expect("the right answer comes last");
    [before, wrong.as_bytes()].concat()
}

/// 1.1 was named and then applied; 1.2 was applied and never named.
#[test]
fn a_settled_hold_does_not_come_again() {
    let text = "N 2 1\nW 1 1 1\nW 1 1 1\nW 1 1 1\nW 1 1 1\nD 2 1 2\nD 2 1 1\nD 2 1 4\n";
    for (wrong, kind) in [
        ("H 1.1\n", FaultKind::HoldAgain),
        ("H 1.2\n", FaultKind::HoldApplied),
    ] {
        let forged = forged(text, "H 1.3\n", wrong);
        let fault = Err(Fault { line: 8, kind });
        assert_eq!(check(text.as_bytes(), &forged), fault);
        assert_eq!(literal::named_too_late(text.as_bytes(), &forged), Some(8));
    }
}

/// Over whole schedules, by the texts alone: once a write is applied at a desk,
/// no `H` there names it. The checker has no later a fault.
#[test]
fn no_hold_names_a_write_that_is_applied_there() {
    let (mut holds, mut late) = (0, 0);
    for seed in 0..60 {
        for kind in Kind::ALL.into_iter().filter(|&kind| kind != Kind::Size) {
            let text = schedule(seed, kind, 200);
            let right = replay(&text);
            assert_eq!(literal::named_too_late(&text, &right), None);
            holds += right.windows(3).filter(|w| w == b"\nH ").count();
            for how in [Misnamed::Count, Misnamed::First] {
                let wrong = answers(&text, Some(Variant::Misnames(how)));
                if let Some(line) = literal::named_too_late(&text, &wrong) {
                    let found = check(&text, &wrong).expect_err("a fault");
                    assert!(found.line <= line, "{kind:?} {seed}: {found}, {line}");
                    late += 1;
                }
            }
        }
    }
    assert!(holds > 5_000 && late > 200, "{holds} {late}");
}

/// Random traffic finds every wrong machine, many times, and never the right
/// one.
#[test]
fn random_runs_tell_right_from_wrong() {
    let mut found: BTreeMap<String, (usize, BTreeMap<String, usize>)> = BTreeMap::new();
    for seed in 0..400 {
        let kind = if seed % 5 == 4 {
            Kind::Full
        } else {
            Kind::Traffic
        };
        // With few desks every other time: there holds go further back.
        let desks = (seed % 2 == 0).then_some(2 + seed as usize % 7);
        let text = schedule_of(seed, kind, 150, desks);
        let right = answers(&text, None);
        assert_eq!(right, replay(&text));
        assert_eq!(check(&text, &right).err(), None, "seed {seed}");
        for variant in WRONG {
            let wrong = answers(&text, Some(variant));
            let verdict = check(&text, &wrong);
            if wrong == right {
                assert!(verdict.is_ok());
            }
            if let Err(fault) = verdict {
                let entry = found.entry(format!("{variant:?}")).or_default();
                entry.0 += 1;
                *entry.1.entry(format!("{:?}", fault.kind)).or_default() += 1;
            }
        }
    }
    let least = [
        ("JoinOnApply", "HeldForNothing"),
        ("AtLeastOneAbove", "WriteNotEarlier"),
        ("OneHeldAndStop", "HeldForNothing"),
        ("UnsetAsOne", "Verdict"),
        ("UnsetAsZero", "Read"),
        ("FreeWhenReceived", "HeldForNothing"),
        ("ReadForgets", "WriteNotEarlier"),
        ("TripForgets", "WriteNotEarlier"),
        ("ReadyByEight", "WriteNotEarlier"),
        ("ReadJoinsEight", "WriteNotEarlier"),
        ("AppliesEight", "Read"),
        ("SearchesEight", "HeldForNothing"),
        ("Misnames(VectorPlace)", "HoldNotFirst"),
        ("Misnames(Count)", "HoldApplied"),
        ("Misnames(NextButOne)", "HoldNotFirst"),
        ("Misnames(First)", "HoldAgain"),
        ("Misnames(Writer)", "HoldNotBefore"),
        ("Misnames(LargestDesk)", "HoldDesk"),
    ];
    assert_eq!(least.len(), WRONG.len());
    for (variant, kind) in least {
        let (count, kinds) = found.get(variant).cloned().unwrap_or_default();
        assert!(
            count >= 20,
            "{variant} was rejected {count} times: {found:?}"
        );
        assert!(kinds.contains_key(kind), "{variant}: {kinds:?}");
    }
}

/// Wrong answers of other kinds, put into right runs by hand.
#[test]
fn forged_answers_are_rejected() {
    let text = b"N 3 2\nW 1 1 2\nW 3 2 1\nR 1 1\nD 2 1 1\nW 1 1 1\nD 3 1 2\nT 2 1 2\n";
    let right = replay(text);
    assert_eq!(
        right,
        b"N\nW 1.1\nW 3.1\nR 2 1.1\nA 1.1\nW 1.2\nH 1.1\nT no\n"
    );
    let forgeries: [(&str, &str, usize, FaultKind); 25] = [
        ("W 3.1\n", "W 3.2\n", 3, FaultKind::WriteName),
        ("R 2 1.1", "R 1 1.1", 4, FaultKind::Read),
        ("R 2 1.1", "R 2 3.1", 4, FaultKind::Read),
        ("R 2 1.1", "R 1 3.1", 4, FaultKind::Read),
        ("R 2 1.1", "R -", 4, FaultKind::Read),
        ("R 2 1.1", "R 2", 4, FaultKind::Answer),
        ("A 1.1", "A 3.1", 5, FaultKind::NotReceived),
        ("A 1.1", "A 1.1 3.1", 5, FaultKind::NotReceived),
        ("A 1.1", "H 1.1", 5, FaultKind::HeldForNothing),
        ("A 1.1", "A", 5, FaultKind::Answer),
        ("H 1.1", "A 1.2", 7, FaultKind::WriteNotEarlier),
        ("H 1.1", "H 3.1", 7, FaultKind::HoldNotBefore),
        ("H 1.1", "H 1.0", 7, FaultKind::HoldUnknown),
        ("H 1.1", "H 4.1", 7, FaultKind::HoldUnknown),
        ("H 1.1", "H 1", 7, FaultKind::Answer),
        ("H 1.1", "H 1.", 7, FaultKind::Answer),
        ("H 1.1", "H .1", 7, FaultKind::Answer),
        ("H 1.1", "H 1.01", 7, FaultKind::Answer),
        ("H 1.1", "H 1.1.1", 7, FaultKind::Answer),
        ("H 1.1", "H 1 1", 7, FaultKind::Answer),
        ("H 1.1", "H 1.1 1.1", 7, FaultKind::Answer),
        ("H 1.1", "H", 7, FaultKind::Answer),
        ("T no", "T yes", 8, FaultKind::Verdict),
        ("T no", "T unknown", 8, FaultKind::Verdict),
        ("T no\n", "", 8, FaultKind::LineCount),
    ];
    let right = String::from_utf8(right).unwrap();
    assert!(check(text, right.as_bytes()).is_ok());
    for (from, to, line, kind) in forgeries {
        let forged = right.replacen(from, to, 1);
        let fault = Err(Fault { line, kind });
        assert_eq!(check(text, forged.as_bytes()), fault, "{from} to {to}");
    }
    // A delivery accepted twice, an unknown write, two writes let go in the
    // wrong order, one answer too many, a table of 17 desks.
    let others: [(&str, &str, usize, FaultKind); 5] = [
        (
            "N 2 1\nW 1 1 1\nD 2 1 1\nD 2 1 1\n",
            "N\nW 1.1\nA 1.1\nA 1.1\n",
            4,
            FaultKind::ReceivedTwice,
        ),
        (
            "N 2 1\nW 1 1 1\nD 2 1 2\n",
            "N\nW 1.1\nA 1.2\n",
            3,
            FaultKind::UnknownWrite,
        ),
        (
            "N 4 1\nW 1 1 1\nD 2 1 1\nR 2 1\nW 2 1 1\nD 3 1 1\nR 3 1\nW 3 1 1\nD 4 3 1\nD 4 2 1\nD 4 1 1\n",
            "N\nW 1.1\nA 1.1\nR 1 1.1\nW 2.1\nA 1.1\nR 1 1.1\nW 3.1\nH 1.1\nH 1.1\nA 1.1 3.1 2.1\n",
            11,
            FaultKind::CascadeOrder,
        ),
        ("N 1 1\n", "N\nN\n", 2, FaultKind::LineCount),
        ("N 17 1\n", "N\n", 1, FaultKind::Answer),
    ];
    for (text, forged, line, kind) in others {
        let fault = Err(Fault { line, kind });
        assert_eq!(check(text.as_bytes(), forged.as_bytes()), fault, "{text}");
        assert!(check(text.as_bytes(), &replay(text.as_bytes())).is_ok());
    }
}

/// The checker works step by step. Held against the demands as they are
/// written, tested from nothing after every step, on right and wrong runs.
#[test]
fn the_checker_agrees_with_the_demands_written_out() {
    let mut rejected = 0;
    let mut passed = 0;
    for seed in 0..80 {
        let text = schedule(seed, Kind::Traffic, 30 + seed as usize % 30);
        for variant in [None].into_iter().chain(WRONG.map(Some)) {
            let answers = answers(&text, variant);
            let Some(literal) = literal::check(&text, &answers) else {
                continue;
            };
            let verdict = check(&text, &answers);
            let told = format!("seed {seed}, {variant:?}: {verdict:?}, {literal:?}");
            match (verdict, literal) {
                (Ok(_), Ok(())) => passed += 1,
                (Err(fault), Err((line, holds))) if fault.line == line => {
                    let kind = match fault.kind {
                        FaultKind::HoldAgain => FaultKind::HoldApplied,
                        kind => kind,
                    };
                    assert!(holds.is_empty() || holds.contains(&kind), "{told}");
                    rejected += 1;
                }
                // The order in `A` goes beyond the demands.
                (Err(fault), Ok(())) => assert!(beyond(fault.kind), "{told}"),
                (Err(fault), Err((line, _))) => {
                    assert!(beyond(fault.kind) && fault.line < line, "{told}");
                }
                (Ok(_), Err(_)) => panic!("{told}"),
            }
        }
    }
    assert!(passed > 100 && rejected > 100, "{passed} {rejected}");
}

/// Save gives 13 before 14 for a table that breaks a rule. Only a wrong machine
/// can bring one about: here an open write is lost, or another is overtaken.
#[test]
fn save_refuses_a_table_that_breaks_a_rule() {
    for (variant, text) in [
        (
            Variant::FreeWhenReceived,
            "N 2 1\nW 1 1 1\nW 1 1 2\nD 2 1 2\n",
        ),
        (
            Variant::AtLeastOneAbove,
            "N 2 1\nW 1 1 1\nW 1 1 2\nD 2 1 2\n",
        ),
    ] {
        for (variant, refusal) in [
            (None, Refusal::Length),
            (Some(variant), Refusal::RuleBroken),
        ] {
            let mut session = Session::new();
            session.variant = variant;
            for line in Reader::new(text.as_bytes()) {
                session.answer(line, &mut Vec::new());
            }
            let table = session.table().expect("N was accepted");
            let mut buffer = [7; 100];
            assert_eq!(save(table, &mut buffer), Err(refusal), "{variant:?}");
            assert_eq!(buffer, [7; 100]);
            assert_eq!(keeps_rules(table), variant.is_none());
        }
    }
}

fn beyond(kind: FaultKind) -> bool {
    kind == FaultKind::CascadeOrder
}

/// The demands from nothing, for runs of at most 128 operations.
mod literal {
    use super::FaultKind;
    use std::collections::HashSet;

    struct Op {
        desk: usize,
        cell: usize,
        /// Status and name of a write.
        write: Option<(usize, String)>,
        /// What a read shows.
        shows: Option<usize>,
    }

    /// The first line at which a demand fails, and which ones on the write that
    /// its `H` names; none if it is another demand.
    type Failing = (usize, Vec<FaultKind>);

    /// `None` if the run is too long.
    pub fn check(schedule: &[u8], answers: &[u8]) -> Option<Result<(), Failing>> {
        let schedule = std::str::from_utf8(schedule).expect("traffic is ASCII");
        let answers = std::str::from_utf8(answers).expect("answers are ASCII");
        let mut ops: Vec<Op> = Vec::new();
        let mut lists: Vec<Vec<usize>> = vec![Vec::new(); 17];
        let mut received: Vec<Vec<usize>> = vec![Vec::new(); 17];
        for (at, (line, answer)) in schedule.lines().zip(answers.lines()).enumerate() {
            let line: Vec<&str> = line.split(' ').collect();
            let answer: Vec<&str> = answer.split(' ').collect();
            if answer[0] == "E" || answer[0] == "N" {
                continue;
            }
            let i: usize = line[1].parse().unwrap();
            let failed = |holds| Some(Err((at + 1, holds)));
            let mut holds = Vec::new();
            let named = |ops: &[Op], name: &str| {
                (ops.iter()).position(|op| op.write.as_ref().is_some_and(|w| w.1 == name))
            };
            let latest = |ops: &[Op], list: &[usize], cell: usize| {
                (list.iter().rev().copied())
                    .find(|&o| ops[o].cell == cell && ops[o].write.is_some())
            };
            match line[0] {
                "R" => {
                    let cell = line[2].parse().unwrap();
                    let shows = match answer[1] {
                        "-" => None,
                        status => {
                            let Some(op) = named(&ops, answer[2]) else {
                                return failed(holds);
                            };
                            if ops[op].write.as_ref().unwrap().0.to_string() != status {
                                return failed(holds);
                            }
                            Some(op)
                        }
                    };
                    lists[i].push(ops.len());
                    ops.push(Op {
                        desk: i,
                        cell,
                        write: None,
                        shows,
                    });
                }
                "T" => {
                    let mut statuses = Vec::new();
                    for cell in &line[2..] {
                        let cell = cell.parse().unwrap();
                        let shows = latest(&ops, &lists[i], cell);
                        statuses.push(shows.map(|o| ops[o].write.as_ref().unwrap().0));
                        lists[i].push(ops.len());
                        ops.push(Op {
                            desk: i,
                            cell,
                            write: None,
                            shows,
                        });
                    }
                    let verdict = match &statuses {
                        s if s.contains(&Some(2)) => "no",
                        s if s.contains(&Some(0)) || s.contains(&None) => "unknown",
                        _ => "yes",
                    };
                    if answer[1] != verdict {
                        return failed(holds);
                    }
                }
                "W" => {
                    let (cell, status) = (line[2].parse().unwrap(), line[3].parse().unwrap());
                    lists[i].push(ops.len());
                    received[i].push(ops.len());
                    let write = Some((status, answer[1].to_string()));
                    ops.push(Op {
                        desk: i,
                        cell,
                        write,
                        shows: None,
                    });
                }
                "D" => {
                    let name = format!("{}.{}", line[2], line[3]);
                    let delivered = named(&ops, &name).unwrap();
                    received[i].push(delivered);
                    if answer[0] == "A" {
                        for name in &answer[1..] {
                            lists[i].push(named(&ops, name).unwrap());
                        }
                    } else {
                        holds = hold(&ops, &lists[i], delivered, answer[1]);
                    }
                }
                _ => unreachable!(),
            }
            if ops.len() > 128 {
                return None;
            }
            if !demands(&ops, &lists, &received) {
                return failed(Vec::new());
            }
            if !holds.is_empty() {
                return failed(holds);
            }
        }
        Some(Ok(()))
    }

    /// The demands that fail on the write that an `H` names.
    fn hold(ops: &[Op], list: &[usize], delivered: usize, name: &str) -> Vec<FaultKind> {
        let (t, j) = name.split_once('.').expect("a write's name");
        let (t, j): (usize, usize) = (t.parse().unwrap(), j.parse().unwrap());
        let before = closure(ops)[delivered];
        let precedes = |w: usize| before >> w & 1 == 1;
        let missing = |w: usize| !list.contains(&w);
        let writes = |desk: usize| {
            (0..ops.len()).filter(move |&o| ops[o].write.is_some() && ops[o].desk == desk)
        };
        let named = writes(t).nth(j.wrapping_sub(1));
        let failing = [
            (FaultKind::HoldUnknown, named.is_none()),
            (
                FaultKind::HoldNotBefore,
                named.is_some_and(|w| !precedes(w)),
            ),
            (FaultKind::HoldApplied, named.is_some_and(|w| !missing(w))),
            (
                FaultKind::HoldNotFirst,
                writes(t).take(j.saturating_sub(1)).any(missing),
            ),
            (
                FaultKind::HoldDesk,
                (1..t).flat_map(writes).any(|w| precedes(w) && missing(w)),
            ),
        ];
        let failing = failing.into_iter().filter(|f| f.1);
        failing.map(|f| f.0).collect()
    }

    /// The first line at which an `H` names a write that was applied there.
    pub fn named_too_late(schedule: &[u8], answers: &[u8]) -> Option<usize> {
        let lines = |text| <[u8]>::split(text, |&b| b == b'\n');
        let mut applied = HashSet::new();
        for (at, (line, answer)) in lines(schedule).zip(lines(answers)).enumerate() {
            let desk = line.split(|&b| b == b' ').nth(1);
            let mut fields = answer.split(|&b| b == b' ');
            match fields.next() {
                Some(b"W" | b"A") => applied.extend(fields.map(|name| (desk, name))),
                Some(b"H") if fields.any(|name| applied.contains(&(desk, name))) => {
                    return Some(at + 1)
                }
                _ => {}
            }
        }
        None
    }

    /// At b, bit a if a comes before b: single edges, then chains.
    fn closure(ops: &[Op]) -> Vec<u128> {
        let mut before = vec![0u128; ops.len()];
        for (b, op) in ops.iter().enumerate() {
            for (a, earlier) in ops[..b].iter().enumerate() {
                if earlier.desk == op.desk || op.shows == Some(a) {
                    before[b] |= 1 << a;
                }
            }
        }
        for middle in 0..ops.len() {
            for b in 0..ops.len() {
                if before[b] >> middle & 1 == 1 {
                    before[b] |= before[middle];
                }
            }
        }
        before
    }

    fn demands(ops: &[Op], lists: &[Vec<usize>], received: &[Vec<usize>]) -> bool {
        let before = closure(ops);
        let precedes = |a: usize, b: usize| before[b] >> a & 1 == 1;
        lists
            .iter()
            .zip(received)
            .enumerate()
            .all(|(i, (list, received))| {
                let entries = list.iter().enumerate().all(|(at, &entry)| {
                    let earlier = &list[..at];
                    let latest = (earlier.iter().rev())
                        .find(|&&o| ops[o].write.is_some() && ops[o].cell == ops[entry].cell);
                    let read = ops[entry].write.is_some() || latest.copied() == ops[entry].shows;
                    read && (0..ops.len()).all(|o| {
                        let counts = ops[o].write.is_some() || ops[o].desk == i;
                        !counts || !precedes(o, entry) || earlier.contains(&o)
                    })
                });
                entries
                    && received.iter().all(|&w| {
                        let missing = (0..ops.len()).any(|o| {
                            ops[o].write.is_some() && precedes(o, w) && !list.contains(&o)
                        });
                        list.contains(&w) != missing
                    })
            })
    }
}
