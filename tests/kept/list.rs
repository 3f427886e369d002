//! The kept images by name, and their schedules.

use std::collections::BTreeSet;
use std::fs;
use std::path::{Path, PathBuf};

/// Every image that has to be there.
pub fn names() -> BTreeSet<String> {
    let mut names = BTreeSet::new();
    for n in 1..=8 {
        let kinds = [("fresh", 1), ("full", 1), ("held", 2), ("held-several", 3)];
        let kinds = kinds.iter().filter(|(_, least)| n >= *least);
        names.extend(kinds.map(|(kind, _)| format!("n{n}-{kind}")));
    }
    names.extend(LONG.map(str::to_string));
    names
}

/// Those whose schedules are too long to be kept.
const LONG: [&str; 3] = ["n1-65535-writes", "n2-65535-writes", "n3-20000-writes"];

fn folder() -> PathBuf {
    Path::new(env!("CARGO_MANIFEST_DIR")).join("../kept")
}

/// The names of the images that are there.
pub fn found() -> BTreeSet<String> {
    let files = fs::read_dir(folder()).expect("the kept images");
    files
        .filter_map(|file| {
            let name = file.expect("an entry").file_name();
            Some(name.to_str()?.strip_suffix(".image")?.to_string())
        })
        .collect()
}

/// The bytes of an image.
pub fn image(name: &str) -> Vec<u8> {
    fs::read(folder().join(format!("{name}.image"))).expect("a kept image")
}

/// The schedule that made an image.
pub fn schedule(name: &str) -> String {
    let mut text = String::new();
    match name {
        "n1-65535-writes" => {
            text += "N 1 1\n";
            for k in 1..=65_535 {
                text += &format!("W 1 1 {}\n", k % 3);
            }
        }
        "n2-65535-writes" => {
            text += "N 2 2\n";
            for k in 1..=65_535 {
                text += &format!("W 1 {} {}\n", k % 2 + 1, k % 3);
                if k <= 65_535 - 64 {
                    text += &format!("D 2 1 {k}\n");
                }
            }
            text += "D 2 1 65535\nD 2 1 65500\n";
        }
        "n3-20000-writes" => {
            text += "N 3 26\n";
            for k in 1..=20_000 {
                let (x, v) = (k % 26 + 1, k % 3);
                text += &format!("W 3 {x} {v}\nD 1 3 {k}\nR 1 {x}\nD 2 3 {k}\n");
            }
            text += "W 1 26 2\nW 3 1 1\nW 1 25 1\nD 2 1 2\n";
        }
        _ => {
            let beside = folder().join(format!("{name}.txt"));
            text = fs::read_to_string(beside).expect("its schedule");
        }
    }
    text
}
