//! What a call costs, beside the independent implementation doing the same.
//!
//! - `bench points`: the points, one to a line: what grows, and its size.
//! - `bench calls SIDE WHAT SIZE N`: N calls of one point and nothing else, for
//!   a counter of instructions outside.
//! - `bench time`: nanoseconds a call at every point, the best of several
//!   batches, as `WHAT,SIZE,SIDE,NUMBER` lines.
//! - `bench plot FIGURES PICTURE UNIT`: such lines as an SVG picture.
//!
//! SIDE is `proved` (the static library) or `plain` (the package `evidence`).
//! The buffers that are lent are made once and not cleared between calls.

mod plot;
mod task;

use std::process::ExitCode;
use std::time::Instant;
use task::{Side, Task};

fn main() -> ExitCode {
    let args: Vec<String> = std::env::args().skip(1).collect();
    let words: Vec<&str> = args.iter().map(String::as_str).collect();
    let done = match words[..] {
        ["points"] => points(),
        ["calls", side, what, size, n] => calls(side, what, size, n),
        ["time"] => time(),
        ["plot", figures, picture, unit] => plot::draw(figures, picture, unit),
        _ => Err(
            "usage: bench points | calls SIDE WHAT SIZE N | time | plot FIGURES PICTURE UNIT"
                .into(),
        ),
    };
    match done {
        Ok(()) => ExitCode::SUCCESS,
        Err(message) => {
            eprintln!("{message}");
            ExitCode::from(2)
        }
    }
}

fn points() -> Result<(), String> {
    for (what, size) in task::points() {
        println!("{what} {size}");
    }
    Ok(())
}

fn calls(side: &str, what: &str, size: &str, n: &str) -> Result<(), String> {
    let side = Side::from_name(side).ok_or("SIDE is proved or plain")?;
    let size = size.parse().map_err(|_| "SIZE is a number")?;
    let n: usize = n.parse().map_err(|_| "N is a number")?;
    let mut task = Task::new(what, size).ok_or("no such point")?;
    for _ in 0..n {
        task.call(side);
    }
    Ok(())
}

fn time() -> Result<(), String> {
    for (what, size) in task::points() {
        let mut task = Task::new(what, size).ok_or("no such point")?;
        for side in Side::ALL {
            println!("{what},{size},{},{:.0}", side.name(), best(&mut task, side));
        }
    }
    Ok(())
}

/// Nanoseconds a call: the best of 7 batches of at least 10 ms.
fn best(task: &mut Task, side: Side) -> f64 {
    let mut calls = 1;
    let mut least = f64::INFINITY;
    let mut batches = 0;
    while batches < 7 {
        let start = Instant::now();
        for _ in 0..calls {
            task.call(side);
        }
        let took = start.elapsed().as_nanos() as f64;
        if took < 1e7 {
            calls *= 2;
        } else {
            batches += 1;
            least = least.min(took / calls as f64);
        }
    }
    least
}
