//! The tables of the manual headed `in` and `out` are what `replay` answers.

use evidence::image::image_len;
use evidence::text::{replay, Reader, Session};
use std::path::Path;

fn manual() -> String {
    let path = Path::new(env!("CARGO_MANIFEST_DIR")).join("../../docs/MANUAL.md");
    std::fs::read_to_string(path).unwrap()
}

/// The cells of a line of a table.
fn cells(line: &str) -> Option<Vec<&str>> {
    let inner = line.strip_prefix('|')?.strip_suffix('|')?;
    Some(inner.split('|').map(str::trim).collect())
}

/// A table: the number of its first line, and its rows without the two lines of the head.
type Found<'a> = (usize, Vec<Vec<&'a str>>);

/// The tables whose head begins so.
fn tables<'a>(text: &'a str, head: &[&str]) -> Vec<Found<'a>> {
    let mut lines = (1..).zip(text.lines());
    let mut found = Vec::new();
    while let Some((number, line)) = lines.next() {
        if cells(line).is_some_and(|cells| cells.starts_with(head)) {
            let below = lines.by_ref().map(|(_, line)| line);
            let rows = below.take_while(|line| line.starts_with('|'));
            let rows = rows.map(|line| cells(line).unwrap_or_else(|| panic!("no row: {line}")));
            found.push((number, rows.skip(1).collect()));
        }
    }
    found
}

/// What stands between backquotes, if that is all of it.
fn quoted(cell: &str) -> Option<&str> {
    let inner = cell.strip_prefix('`')?.strip_suffix('`')?;
    (!inner.contains('`')).then_some(inner)
}

/// The bytes of a line that is shown with signs for what cannot be seen.
fn seen(line: &str) -> String {
    line.replace('␠', " ").replace('␉', "\t").replace('␍', "\r")
}

/// The input that a row stands for, without the last LF.
fn input(cell: &str) -> Option<Vec<String>> {
    if cell == "(empty line)" {
        return Some(vec![String::new()]);
    }
    if let Some(line) = quoted(cell) {
        return Some(vec![seen(line)]);
    }
    // `W 1 1 1`, 64 times
    let (line, times) = cell.strip_suffix(" times")?.rsplit_once(", ")?;
    Some(vec![seen(quoted(line)?); times.parse().ok()?])
}

/// The answers that a row shows.
fn output(cell: &str) -> Option<Vec<String>> {
    if let Some(line) = quoted(cell) {
        return Some(vec![line.to_string()]);
    }
    // `W 1.1` to `W 1.64`
    let (first, last) = cell.split_once(" to ")?;
    let (name, first) = quoted(first)?.rsplit_once('.')?;
    let (same, last) = quoted(last)?.rsplit_once('.')?;
    let (first, last): (u16, u16) = (first.parse().ok()?, last.parse().ok()?);
    (name == same).then(|| (first..=last).map(|k| format!("{name}.{k}")).collect())
}

/// Holds a table's answers against `replay`; gives the number of its lines, or what is wrong.
fn hold((number, rows): &Found) -> Result<usize, String> {
    let mut schedule = String::new();
    let mut answers = Vec::new();
    let mut shown = Vec::new();
    for (at, row) in rows.iter().enumerate() {
        let told = || format!("the table at line {number}, {row:?}");
        let (&[given, answer], words) = row
            .split_first_chunk()
            .ok_or_else(|| format!("{}: too short", told()))?;
        let lines = input(given).ok_or_else(|| format!("{}: no input", told()))?;
        let of_row = output(answer).ok_or_else(|| format!("{}: no output", told()))?;
        if lines.len() != of_row.len() {
            return Err(format!("{}: not as many answers", told()));
        }
        for line in lines {
            schedule += &line;
            schedule.push('\n');
            shown.push(told());
        }
        answers.extend(of_row);
        if words.iter().any(|word| word.contains("without LF")) {
            if at + 1 != rows.len() {
                return Err(format!("{}: not the last", told()));
            }
            schedule.pop();
        }
    }
    let made = String::from_utf8(replay(schedule.as_bytes())).unwrap();
    let made: Vec<&str> = made.split_terminator('\n').collect();
    if made.len() != answers.len() {
        return Err(format!(
            "the table at line {number}: {} answers",
            made.len()
        ));
    }
    for ((made, answer), row) in made.iter().zip(&answers).zip(&shown) {
        if made != answer {
            return Err(format!("{row}: it is {made}"));
        }
    }
    Ok(made.len())
}

#[test]
fn every_table_of_in_and_out_is_so() {
    let text = manual();
    let found = tables(&text, &["in", "out"]);
    let held: Result<Vec<usize>, String> = found.iter().map(hold).collect();
    let held = held.unwrap_or_else(|wrong| panic!("{wrong}"));
    // None was overlooked.
    assert_eq!(held.len(), text.matches("\n| in |").count());
    assert!(
        held.len() >= 8 && held.iter().sum::<usize>() > 200,
        "{held:?}"
    );
}

/// A wrong answer is found, as is a row that is not understood.
#[test]
fn a_wrong_table_is_found() {
    let head = "| in | out | |\n|---|---|---|\n| `N 2 1` | `N` | |\n";
    let rows = |more: &str| {
        let text = format!("{head}{more}\n");
        hold(&tables(&text, &["in", "out"])[0])
    };
    assert_eq!(rows("| `W 1 1 1`, 3 times | `W 1.1` to `W 1.3` | |"), Ok(4));
    assert_eq!(rows("| `R 1 1␠` | `E 10` | |"), Ok(2));
    assert_eq!(rows("| (empty line) | `E 10` | |"), Ok(2));
    assert_eq!(rows("| `R 1 1` | `E 10` | last line, without LF |"), Ok(2));
    for wrong in [
        "| `R 1 1` | `E 10` | |",
        "| `R 1 1` | `R -` | last line, without LF |",
        "| `R 1 1` | `E 10` | without LF |\n| `R 1 1` | `R -` | |",
        "| `W 1 1 1`, 3 times | `W 1.1` to `W 1.4` | |",
        "| `W 1 1 1`, 3 times | `W 1.2` to `W 1.4` | |",
        "| R 1 1 | `R -` | |",
        "| `R 1 1` | R - | |",
        "| `R 1 1` | `R -`, `R -` | |",
        "| `R 1 1` |",
    ] {
        assert!(rows(wrong).is_err(), "{wrong}");
    }
}

/// The program in C of section 8: what it prints, from its two texts.
#[test]
fn what_the_program_in_c_prints() {
    let text = manual();
    let string = |name: &str| {
        let (_, behind) = text.split_once(&format!("{name}[] = \"")).unwrap();
        behind.split_once('"').unwrap().0.replace("\\n", "\n")
    };
    let mut session = Session::new();
    let mut made = Vec::new();
    for line in Reader::new(string("monday").as_bytes()) {
        session.answer(line, &mut made);
    }
    let saved = image_len(session.table().unwrap());
    made.extend(format!("saved: {saved} bytes\n").bytes());
    for line in Reader::new(string("tuesday").as_bytes()) {
        session.answer(line, &mut made);
    }
    let found = tables(&text, &["it prints"]);
    let [(_, rows)] = found.as_slice() else {
        panic!("{} tables", found.len());
    };
    let shown: Vec<&str> = rows.iter().map(|row| quoted(row[0]).unwrap()).collect();
    assert_eq!(String::from_utf8(made).unwrap(), shown.join("\n") + "\n");
}
