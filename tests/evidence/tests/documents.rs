//! What the documents cite is there: files, functions, and the names of definitions, theorems, fields and edits.

use std::collections::HashSet;
use std::fs;
use std::path::{Path, PathBuf};

const DOCUMENTS: [&str; 5] = [
    "DEMANDS.md",
    "CONTRACTS.md",
    "EXCEPTIONS.md",
    "HOUSE.md",
    "DECISIONS.md",
];

fn root() -> PathBuf {
    Path::new(env!("CARGO_MANIFEST_DIR")).join("../..")
}

fn walk(folder: &Path, files: &mut Vec<PathBuf>) {
    for entry in fs::read_dir(folder).expect("a folder of the project") {
        let path = entry.expect("an entry").path();
        if path.is_dir() {
            if path.file_name().is_none_or(|name| name != "target") {
                walk(&path, files);
            }
        } else {
            files.push(path);
        }
    }
}

/// The words of a source: what stands between spaces, brackets and marks, whole and in its parts at dots.
fn words(text: &str, into: &mut HashSet<String>) {
    let marks = |c: char| c.is_whitespace() || "(){}[];,:⌜⌝λ&`'\"=<>|".contains(c);
    for word in text.split(marks).filter(|w| !w.is_empty()) {
        for part in word.split('.') {
            into.insert(part.to_string());
        }
        into.insert(word.to_string());
    }
}

struct House {
    files: Vec<String>,
    words: HashSet<String>,
}

fn house() -> House {
    let root = root();
    let mut paths = Vec::new();
    for folder in ["crates", "tests", "include", "examples"] {
        walk(&root.join(folder), &mut paths);
    }
    let mut found = House {
        files: Vec::new(),
        words: HashSet::new(),
    };
    for path in paths {
        let name = path
            .strip_prefix(&root)
            .expect("below the root")
            .to_string_lossy()
            .into_owned();
        let kind = path.extension().and_then(|e| e.to_str()).unwrap_or("");
        let cites = name.ends_with("tests/documents.rs");
        if ["antt", "rt", "rs", "h", "c"].contains(&kind) && !cites {
            words(
                &fs::read_to_string(&path).expect("a text"),
                &mut found.words,
            );
        }
        if name.contains("/must-fail/") {
            let edit = path
                .file_stem()
                .expect("a name")
                .to_string_lossy()
                .into_owned();
            found.words.insert(edit);
        }
        if let Some(below) = name.strip_prefix("crates/") {
            found
                .words
                .insert(below.split('/').next().expect("a crate").to_string());
        }
        found.files.push(name);
    }
    found
}

/// Whether a quoted word has the form of a name: letters, digits, `-`, `_` and primes, perhaps with a field behind a dot.
fn is_name(quoted: &str) -> bool {
    let letter = |c: char| c.is_alphanumeric() || "-_′?".contains(c);
    quoted.starts_with(|c: char| c.is_ascii_alphabetic())
        && quoted.chars().count() > 1
        && quoted
            .split('.')
            .all(|part| !part.is_empty() && part.chars().all(letter))
        && !quoted.ends_with('-')
}

fn missing(house: &House, quoted: &str) -> bool {
    let quoted = quoted.split_once('(').map_or(quoted, |(name, _)| name);
    if quoted.contains('*') {
        return false;
    }
    if quoted.ends_with(".antt") {
        let end = format!("/{quoted}");
        return !house.files.iter().any(|file| file.ends_with(&end));
    }
    if let Some((owner, name)) = quoted.split_once("::") {
        return ![owner, name]
            .iter()
            .all(|word| word.split("::").all(|part| house.words.contains(part)));
    }
    if let Some((owner, name)) = quoted.split_once('/').filter(|(_, name)| is_name(name)) {
        let owner = format!("crates/{owner}/");
        let (edit, folder) = (
            format!("{owner}must-fail/{name}.edit"),
            format!("{owner}{name}/"),
        );
        return house.files.iter().any(|file| file.starts_with(&owner))
            && !house
                .files
                .iter()
                .any(|file| *file == edit || file.starts_with(&folder));
    }
    is_name(quoted) && !quoted.split('.').all(|part| house.words.contains(part))
}

/// The words in back quotes of a text, outside fenced blocks.
fn quoted(text: &str) -> Vec<(usize, String)> {
    let mut found = Vec::new();
    let mut fenced = false;
    for (at, line) in text.lines().enumerate() {
        if line.starts_with("```") {
            fenced = !fenced;
        } else if !fenced {
            for (k, part) in line.split('`').enumerate() {
                if k % 2 == 1 {
                    found.push((at + 1, part.to_string()));
                }
            }
        }
    }
    found
}

#[test]
fn what_the_documents_cite_is_there() {
    let house = house();
    let mut wrong = Vec::new();
    let mut seen = 0;
    for document in DOCUMENTS {
        let text = fs::read_to_string(root().join("docs").join(document)).expect("a document");
        for (line, word) in quoted(&text) {
            seen += 1;
            if missing(&house, &word) {
                wrong.push(format!("{document}:{line}: `{word}`"));
            }
        }
    }
    assert!(
        seen > 500,
        "the documents were read: {seen} words in quotes"
    );
    assert!(
        wrong.is_empty(),
        "cited and not found:\n{}",
        wrong.join("\n")
    );
}

#[test]
fn every_edit_has_its_row() {
    let contracts = fs::read_to_string(root().join("docs/CONTRACTS.md")).expect("a document");
    let rows: HashSet<&str> = contracts
        .lines()
        .filter_map(|line| line.strip_prefix("| `")?.split('`').next())
        .collect();
    let house = house();
    let edits = (house.files.iter()).filter_map(|file| {
        file.strip_prefix("crates/")?
            .strip_suffix(".edit")?
            .split_once("/must-fail/")
    });
    let mut seen = 0;
    for (owner, edit) in edits {
        seen += 1;
        let named = format!("{owner}/{edit}");
        assert!(
            rows.contains(named.as_str()) || (owner == "machine" && rows.contains(edit)),
            "{named} has no row"
        );
    }
    assert!(seen > 40, "{seen} edits were found");
}

#[test]
fn a_name_that_is_nowhere_is_missed() {
    let house = house();
    let nowhere = ["no", "such", "theorem"].join("-");
    assert!(missing(&house, &nowhere));
    assert!(missing(&house, "machine/specs/Nowhere.antt"));
    assert!(!missing(&house, "machine/specs/Demand3.antt"));
    assert!(missing(&house, "image/no_such_edit"));
    assert!(!missing(&house, "image/entry_order"));
    assert!(!missing(&house, "image/specs"));
    assert!(!missing(&house, "capi::access_run"));
}
