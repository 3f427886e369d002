//! `replay`: schedule text from standard input, answers to standard output.

use evidence::text::{replay, MAX_INPUT};
use std::io::{self, Read, Write};

/// An error with the stream in trouble.
fn named(stream: &str) -> impl Fn(io::Error) -> io::Error + '_ {
    move |e| io::Error::new(e.kind(), format!("{stream}: {e}"))
}

fn main() -> io::Result<()> {
    let input_failed = named("standard input");
    let output_failed = named("standard output");
    let mut stdin = io::stdin().lock();
    let mut input = Vec::with_capacity(MAX_INPUT + 1);
    stdin
        .by_ref()
        .take(MAX_INPUT as u64 + 1)
        .read_to_end(&mut input)
        .map_err(&input_failed)?;
    let mut stdout = io::stdout().lock();
    stdout
        .write_all(&replay(&input))
        .and_then(|()| stdout.flush())
        .map_err(output_failed)?;
    // Too long an input is answered by now; read on, so that the program that
    // writes it does not find its pipe broken.
    io::copy(&mut stdin, &mut io::sink()).map_err(input_failed)?;
    Ok(())
}
