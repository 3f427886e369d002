//! Holds a `replay` program to what it does where its streams are in trouble: `streams PROGRAM`.
//!
//! Nothing proves these: what a system call reads and writes is outside the
//! proofs. Each check is printed with its outcome.

use std::fs::{File, OpenOptions};
use std::io::{self, Write};
use std::os::unix::process::ExitStatusExt;
use std::process::{Command, ExitCode, Output, Stdio};

/// What a check found wrong, if anything.
type Outcome = Result<(), String>;

fn main() -> ExitCode {
    let args: Vec<String> = std::env::args().skip(1).collect();
    let [program] = args.as_slice() else {
        eprintln!("usage: streams PROGRAM");
        return ExitCode::from(2);
    };
    type Check = fn(&str) -> Outcome;
    let checks: [(&str, Check); 6] = [
        ("the output is a full device", full_device),
        ("nobody reads the output", closed_output),
        (
            "nobody reads the output, and no signal says so",
            ignored_signal,
        ),
        ("the input is longer than 65,536 bytes", long_input),
        ("the input comes byte by byte", slow_input),
        ("the input cannot be read", unreadable_input),
    ];
    let mut failed = 0;
    for (what, check) in checks {
        match check(program) {
            Ok(()) => println!("{what}: as it should be"),
            Err(fault) => {
                println!("{what}: {fault}");
                failed += 1;
            }
        }
    }
    if failed > 0 {
        return ExitCode::FAILURE;
    }
    ExitCode::SUCCESS
}

const SIGPIPE: i32 = 13;

const SESSION: &[u8] = b"N 2 1\nW 1 1 1\nD 2 1 1\nR 2 1\n";
const ANSWERS: &[u8] = b"N\nW 1.1\nA 1.1\nR 1 1.1\n";

/// A program under way: how its input went, and what became of it.
struct Ended {
    written: io::Result<()>,
    output: Output,
}

/// Runs a command on an input that comes in pieces of so many bytes.
fn run(command: &mut Command, input: &[u8], piece: usize) -> Result<Ended, String> {
    let mut child = command
        .stdin(Stdio::piped())
        .stderr(Stdio::piped())
        .spawn()
        .map_err(|e| format!("it does not start: {e}"))?;
    let mut stdin = child.stdin.take().expect("a pipe");
    let input = input.to_vec();
    let writer = std::thread::spawn(move || {
        input
            .chunks(piece)
            .try_for_each(|part| stdin.write_all(part))
    });
    let output = child.wait_with_output().map_err(|e| e.to_string())?;
    let written = writer.join().expect("the writer ends");
    Ok(Ended { written, output })
}

/// It read all, printed just this, said nothing else and ended well.
fn printed(ended: &Ended, answers: &[u8]) -> Outcome {
    let said = String::from_utf8_lossy(&ended.output.stderr);
    if let Err(e) = &ended.written {
        return Err(format!("the writer of the input failed: {e}"));
    }
    if !ended.output.status.success() || !said.is_empty() {
        return Err(format!("it ended with {}: {said}", ended.output.status));
    }
    if ended.output.stdout != answers {
        return Err("the answers differ".into());
    }
    Ok(())
}

/// It named the stream in trouble on standard error, and ended with status 1.
fn complained(ended: &Ended, stream: &str) -> Outcome {
    let said = String::from_utf8_lossy(&ended.output.stderr);
    if !said.contains(stream) {
        return Err(format!("{stream} is not named on standard error: {said}"));
    }
    if ended.output.status.code() != Some(1) {
        return Err(format!("it ended with {}", ended.output.status));
    }
    Ok(())
}

fn full_device(program: &str) -> Outcome {
    let full = OpenOptions::new()
        .write(true)
        .open("/dev/full")
        .map_err(|e| format!("/dev/full: {e}"))?;
    let ended = run(Command::new(program).stdout(full), SESSION, SESSION.len())?;
    complained(&ended, "standard output")
}

/// The writing end of a pipe that nobody reads.
fn broken_pipe() -> Result<Stdio, String> {
    // The input of a program that has ended.
    let mut child = Command::new("true")
        .stdin(Stdio::piped())
        .spawn()
        .map_err(|e| format!("true: {e}"))?;
    let stdin = child.stdin.take().expect("a pipe");
    child.wait().map_err(|e| format!("true: {e}"))?;
    Ok(stdin.into())
}

fn closed_output(program: &str) -> Outcome {
    let ended = run(
        Command::new(program).stdout(broken_pipe()?),
        SESSION,
        SESSION.len(),
    )?;
    // SIGPIPE ends it (a script that runs it reports that as 128 and the signal), or it says what failed.
    let status = ended.output.status;
    if status.signal() == Some(SIGPIPE) || status.code() == Some(128 + SIGPIPE) {
        return Ok(());
    }
    complained(&ended, "standard output")
}

fn ignored_signal(program: &str) -> Outcome {
    let mut shell = Command::new("sh");
    shell.args(["-c", "trap '' PIPE; exec \"$0\"", program]);
    let ended = run(shell.stdout(broken_pipe()?), SESSION, SESSION.len())?;
    complained(&ended, "standard output")
}

fn long_input(program: &str) -> Outcome {
    let whole = run(
        Command::new(program).stdout(Stdio::piped()),
        &[b'\n'; 65_536],
        65_536,
    )?;
    printed(&whole, &b"E 10\n".repeat(65_536))?;
    for length in [65_537, 200_000, 3_000_000] {
        let input = vec![b'\n'; length];
        let long = run(Command::new(program).stdout(Stdio::piped()), &input, length)?;
        printed(&long, b"E 14\n").map_err(|fault| format!("{length} bytes: {fault}"))?;
    }
    Ok(())
}

fn slow_input(program: &str) -> Outcome {
    printed(
        &run(Command::new(program).stdout(Stdio::piped()), SESSION, 1)?,
        ANSWERS,
    )
}

/// A folder can be opened, and not read.
fn unreadable_input(program: &str) -> Outcome {
    let folder = File::open("/").map_err(|e| format!("/: {e}"))?;
    let output = Command::new(program)
        .stdin(folder)
        .output()
        .map_err(|e| format!("it does not start: {e}"))?;
    if !output.stdout.is_empty() {
        return Err("it answers what it could not read".into());
    }
    let ended = Ended {
        written: Ok(()),
        output,
    };
    complained(&ended, "standard input")
}
