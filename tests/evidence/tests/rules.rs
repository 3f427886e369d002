//! The program `image_rules`: its stored output is what the independent implementation makes of its stored input.

mod common;

use common::rules::finding;
use evidence::image::{check_of, load, to_vec, Fault, BLOCK, CHECK, MAX_BLOCKS};
use evidence::text::{Line, Session};
use std::collections::BTreeSet;
use std::path::PathBuf;

const INPUT: &str = "stdin";
const OUTPUT: &str = "stdout";

fn stored(name: &str) -> String {
    let folder = concat!(env!("CARGO_MANIFEST_DIR"), "/../../crates/image_rules");
    std::fs::read_to_string(PathBuf::from(folder).join(name)).unwrap()
}

/// A case: a copy of the image at hand, of some blocks, in which bytes become others.
#[derive(Debug)]
struct Case {
    blocks: usize,
    /// Block, byte and value.
    changes: Vec<(usize, usize, u8)>,
}

impl Case {
    /// `b k.j=v k.j=v .. rule`
    fn parse(line: &str) -> Option<Case> {
        let (blocks, mut rest) = line.split_once(' ')?;
        let mut changes = Vec::new();
        while rest.starts_with(|c: char| c.is_ascii_digit()) {
            let (change, behind) = rest.split_once(' ')?;
            let (place, value) = change.split_once('=')?;
            let (block, byte) = place.split_once('.')?;
            changes.push((block.parse().ok()?, byte.parse().ok()?, value.parse().ok()?));
            rest = behind;
        }
        let blocks = blocks.parse().ok()?;
        let fits = |&(block, byte, _): &(usize, usize, u8)| block < blocks && byte < BLOCK;
        let good = blocks <= MAX_BLOCKS && changes.iter().all(fits) && !rest.is_empty();
        good.then_some(Case { blocks, changes })
    }

    /// The copy, with zeros behind the image, and its checks as they were.
    fn copy(&self, image: &[u8]) -> Vec<u8> {
        let mut copy = image.to_vec();
        copy.resize(self.blocks * BLOCK, 0);
        for &(block, byte, value) in &self.changes {
            copy[block * BLOCK + byte] = value;
        }
        copy
    }
}

/// Puts all checks right.
fn seal(image: &mut [u8]) {
    for block in image.chunks_mut(BLOCK) {
        let check = check_of(block);
        block[CHECK..].copy_from_slice(&check.to_le_bytes());
    }
}

/// What a load says, as the program prints it; the literal version says the same.
fn outcome(image: &[u8]) -> String {
    let fault = load(image).err();
    let told = fault.map(|fault| (fault.refusal().number(), fault.place()));
    assert_eq!(told, finding(image));
    match fault {
        None => " loaded".into(),
        Some(Fault::WrongLength) => " 15".into(),
        Some(Fault::Check(place)) => format!(" 12 at {place}"),
        Some(Fault::Rule(place)) => format!(" 13 at {place}"),
    }
}

/// What a case has shown: the edition of the image at hand, its blocks, those of the copy, and both outcomes.
struct Shown {
    edition: u8,
    whole: usize,
    blocks: usize,
    before: Option<Fault>,
    sealed: Option<Fault>,
}

/// All that the program prints for an input, and what its cases show.
fn run(input: &str) -> (String, Vec<Shown>) {
    let mut session = Session::new();
    let mut answers = Vec::new();
    let mut image = Vec::new();
    let mut out = String::new();
    let mut shown = Vec::new();
    for line in input.lines() {
        match line.as_bytes().first() {
            Some(b'N' | b'W' | b'D' | b'R') => {
                if line.starts_with('N') {
                    session = Session::new();
                }
                let bytes = line.as_bytes();
                session.answer(Line { bytes, ended: true }, &mut answers);
            }
            Some(b'S') => {
                assert_eq!(line, "S");
                image = to_vec(session.table().unwrap()).unwrap();
                out += std::str::from_utf8(&answers).unwrap();
                answers.clear();
                out += &format!("{} bytes:{}\n", image.len(), outcome(&image));
            }
            Some(b'0'..=b'9') => {
                let case = Case::parse(line).unwrap_or_else(|| panic!("no case: {line}"));
                let copy = case.copy(&image);
                let mut right = copy.clone();
                seal(&mut right);
                out += &format!("{line}:{}{}\n", outcome(&copy), outcome(&right));
                shown.push(Shown {
                    edition: image[1],
                    whole: image.len() / BLOCK,
                    blocks: case.blocks,
                    before: load(&copy).err(),
                    sealed: load(&right).err(),
                });
            }
            _ => {}
        }
    }
    assert!(answers.is_empty(), "steps without an S behind them");
    (out, shown)
}

/// Byte for byte. Where they differ, what should be stored is left beside the build.
#[test]
fn the_stored_output_is_this_one() {
    let (made, _) = run(&stored(INPUT));
    let kept = stored(OUTPUT);
    if made == kept {
        return;
    }
    let beside = PathBuf::from(env!("CARGO_TARGET_TMPDIR")).join("image_rules.stdout");
    std::fs::write(&beside, &made).unwrap();
    for (number, (made, kept)) in (1..).zip(made.lines().zip(kept.lines())) {
        assert_eq!(kept, made, "line {number}; see {}", beside.display());
    }
    panic!(
        "the lines are not as many, or the last has no LF; see {}",
        beside.display()
    );
}

/// In both editions there are cases of each number and kind of place, with the checks as they were and with right ones.
#[test]
fn the_cases_meet_every_class() {
    let class = |fault: Option<Fault>, blocks: usize| match fault {
        None => "loaded",
        Some(Fault::WrongLength) => "15",
        Some(Fault::Check(0)) => "12 at the first",
        Some(Fault::Check(place)) if place + 1 == blocks => "12 at the last",
        Some(Fault::Check(_)) => "12 between",
        Some(Fault::Rule(0)) => "13 at the first",
        Some(Fault::Rule(place)) if place + 1 == blocks => "13 at the last",
        Some(Fault::Rule(place)) if place == blocks => "13 at the count",
        Some(Fault::Rule(_)) => "13 between",
    };
    let (_, shown) = run(&stored(INPUT));
    for edition in [1, 2] {
        let of_edition = || shown.iter().filter(move |s| s.edition == edition);
        let before: BTreeSet<_> = of_edition().map(|s| class(s.before, s.blocks)).collect();
        let sealed: BTreeSet<_> = of_edition().map(|s| class(s.sealed, s.blocks)).collect();
        let checks = ["12 at the first", "12 at the last", "12 between"];
        let rules = [
            "13 at the count",
            "13 at the first",
            "13 at the last",
            "13 between",
        ];
        for met in checks
            .iter()
            .chain(&["13 at the count", "13 between", "15", "loaded"])
        {
            assert!(before.contains(met), "edition {edition}: {met}");
        }
        for met in rules.iter().chain(&["15", "loaded"]) {
            assert!(sealed.contains(met), "edition {edition}: {met}, sealed");
        }
        assert!(checks.iter().all(|check| !sealed.contains(check)));
        // A wrong check behind a block that cannot stand there; and one block too few, and too many.
        let late = |s: &Shown| match (s.before, s.sealed) {
            (Some(Fault::Check(check)), Some(Fault::Rule(stray))) => stray < check,
            _ => false,
        };
        assert!(of_edition().any(late), "edition {edition}");
        assert!(
            of_edition().any(|s| s.blocks + 1 == s.whole),
            "edition {edition}"
        );
        assert!(
            of_edition().any(|s| s.blocks == s.whole + 1),
            "edition {edition}"
        );
    }
}
