//! Holds a `replay` program against this package: `compare PROGRAM [--runs N] [--seed S]`.
//!
//! Each run is a generated schedule. The program's answers are compared byte
//! for byte with [`evidence::text::replay`], and checked by the definition of
//! causal order. A difference is printed with the shortest schedule that still
//! shows it.

use evidence::causal::Holds;
use evidence::gen::{schedule, Kind};
use evidence::{causal, text};
use std::io::Write;
use std::process::{Command, ExitCode, Stdio};

/// A run of at least this length has to meet each class of held answers at
/// least so often.
const FULL: usize = 1_000;
const LEAST: usize = 300;

fn main() -> ExitCode {
    let args: Vec<String> = std::env::args().skip(1).collect();
    let Some((program, runs, seed)) = options(&args) else {
        eprintln!("usage: compare PROGRAM [--runs N] [--seed S]");
        return ExitCode::from(2);
    };
    let (mut lines, mut checked, mut holds) = (0, 0, Holds::default());
    for run in 0..runs {
        let kind = Kind::ALL[run % Kind::ALL.len()];
        let input = schedule(seed + run as u64, kind, 20 + run % 400);
        if let Some(fault) = fault(program, &input) {
            let short = shortest(program, input);
            eprintln!("run {run}, kind {}: {fault}", kind.name());
            eprintln!("the shortest schedule that shows a difference:");
            eprintln!("{}", String::from_utf8_lossy(&short));
            return ExitCode::FAILURE;
        }
        lines += input.iter().filter(|b| **b == b'\n').count();
        if let Ok(report) = causal::check(&input, &text::replay(&input)) {
            checked += 1;
            holds += report.holds;
        }
        if (run + 1) % 500 == 0 {
            eprintln!(
                "{} runs, {lines} lines, {checked} checked for causal order, no difference",
                run + 1
            );
        }
    }
    if checked == 0 {
        eprintln!("no schedule was checked for causal order");
        return ExitCode::FAILURE;
    }
    println!("{holds}");
    let rare = holds.rare(LEAST);
    if runs >= FULL && !rare.is_empty() {
        eprintln!("too few held answers: {}", rare.join(", "));
        return ExitCode::FAILURE;
    }
    println!("{runs} schedules, {lines} lines: no difference; {checked} of them by the definition of causal order");
    ExitCode::SUCCESS
}

fn options(args: &[String]) -> Option<(&str, usize, u64)> {
    let (program, rest) = args.split_first()?;
    let (mut runs, mut seed) = (2000, 1);
    for pair in rest.chunks(2) {
        match pair {
            [option, value] if option == "--runs" => runs = value.parse().ok()?,
            [option, value] if option == "--seed" => seed = value.parse().ok()?,
            _ => return None,
        }
    }
    Some((program, runs, seed))
}

/// What is wrong with the program's answers, if anything is.
fn fault(program: &str, input: &[u8]) -> Option<String> {
    let found = match answers(program, input) {
        Ok(found) => found,
        Err(fault) => return Some(fault),
    };
    if found != text::replay(input) {
        return Some("the answers differ".into());
    }
    match causal::check(input, &found) {
        Err(fault) if input.len() <= 65_536 => Some(format!("causal order: {fault:?}")),
        _ => None,
    }
}

/// What the program prints, if it reads all of its input, ends well and
/// complains of nothing.
fn answers(program: &str, input: &[u8]) -> Result<Vec<u8>, String> {
    let mut child = Command::new(program)
        .stdin(Stdio::piped())
        .stdout(Stdio::piped())
        .stderr(Stdio::piped())
        .spawn()
        .map_err(|e| format!("it does not start: {e}"))?;
    let mut stdin = child.stdin.take().expect("a pipe");
    let input = input.to_vec();
    let writer = std::thread::spawn(move || stdin.write_all(&input));
    let output = child.wait_with_output().expect("the program ends");
    let written = writer.join().expect("the writer ends");
    if !output.status.success() || !output.stderr.is_empty() {
        let said = String::from_utf8_lossy(&output.stderr);
        return Err(format!("it ended with {}: {said}", output.status));
    }
    match written {
        Ok(()) => Ok(output.stdout),
        Err(e) => Err(format!("it did not read all of its input: {e}")),
    }
}

/// Lines are left out as long as a difference stays.
fn shortest(program: &str, input: Vec<u8>) -> Vec<u8> {
    let mut lines: Vec<Vec<u8>> = input
        .split_inclusive(|b| *b == b'\n')
        .map(<[u8]>::to_vec)
        .collect();
    let mut size = lines.len() / 2;
    while size > 0 {
        let mut at = 0;
        while at < lines.len() {
            let mut fewer = lines.clone();
            fewer.drain(at..(at + size).min(lines.len()));
            if fault(program, &fewer.concat()).is_some() {
                lines = fewer;
            } else {
                at += size;
            }
        }
        size /= 2;
    }
    lines.concat()
}

#[cfg(test)]
mod tests {
    use super::answers;

    #[test]
    fn more_than_the_answers_counts() {
        assert_eq!(answers("true", b""), Ok(vec![]));
        assert!(answers("false", b"").is_err(), "an exit status");
        let long = vec![b'\n'; 1_000_000];
        assert!(answers("true", &long).is_err(), "input left unread");
        assert!(answers("no-such-program", b"").is_err());
    }
}
