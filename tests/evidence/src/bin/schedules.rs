//! Prints a generated schedule: `schedules --seed S --kind K --lines N [--desks D]`.

use evidence::gen::{schedule_of, Kind};
use evidence::table::MAX_DESKS;
use std::io::{self, Write};
use std::process::ExitCode;

fn main() -> ExitCode {
    let args: Vec<String> = std::env::args().skip(1).collect();
    let Some((seed, kind, lines, desks)) = options(&args) else {
        let kinds: Vec<&str> = Kind::ALL.iter().map(|k| k.name()).collect();
        eprintln!("usage: schedules --seed S --kind K --lines N [--desks D]");
        eprintln!("kinds: {}", kinds.join(", "));
        return ExitCode::from(2);
    };
    let mut stdout = io::stdout().lock();
    let text = schedule_of(seed, kind, lines, desks);
    match stdout.write_all(&text).and_then(|()| stdout.flush()) {
        Ok(()) => ExitCode::SUCCESS,
        Err(_) => ExitCode::FAILURE,
    }
}

/// What is asked for: seed, kind, lines, and desks if they are.
type Asked = (u64, Kind, usize, Option<usize>);

/// The four options; each may be left out. A kind has the desks that it needs.
fn options(args: &[String]) -> Option<Asked> {
    let (mut seed, mut kind, mut lines, mut desks) = (1, Kind::Mixed, 200, None);
    for pair in args.chunks(2) {
        let [option, value] = pair else {
            return None;
        };
        match option.as_str() {
            "--seed" => seed = value.parse().ok()?,
            "--kind" => kind = Kind::from_name(value)?,
            "--lines" => lines = value.parse().ok()?,
            "--desks" => desks = Some(value.parse().ok()?),
            _ => return None,
        }
    }
    let least = match kind {
        Kind::Traffic | Kind::Full | Kind::Mixed => 2,
        _ => 1,
    };
    let most = if kind == Kind::Single { 1 } else { MAX_DESKS };
    let fits = desks.is_none_or(|desks| (least..=most).contains(&desks));
    fits.then_some((seed, kind, lines, desks))
}
