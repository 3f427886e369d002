//! The two programs.

mod common;

use evidence::gen::{schedule, schedule_of, Kind};
use evidence::text::replay;
use std::io::Write;
use std::process::{Command, Output, Stdio};

fn run(program: &str, args: &[&str], input: &[u8]) -> Output {
    let mut child = Command::new(program)
        .args(args)
        .stdin(Stdio::piped())
        .stdout(Stdio::piped())
        .stderr(Stdio::piped())
        .spawn()
        .unwrap();
    let mut stdin = child.stdin.take().unwrap();
    let input = input.to_vec();
    let writer = std::thread::spawn(move || stdin.write_all(&input));
    let output = child.wait_with_output().unwrap();
    let written = writer.join().unwrap();
    assert!(
        written.is_ok(),
        "not all of the input was read: {written:?}"
    );
    output
}

fn replay_ref(input: &[u8]) -> Vec<u8> {
    let output = run(env!("CARGO_BIN_EXE_replay_ref"), &[], input);
    assert!(output.status.success() && output.stderr.is_empty());
    output.stdout
}

#[test]
fn replay_ref_does_as_replay() {
    let (input, output) = common::session();
    assert_eq!(replay_ref(&input), output);
    assert_eq!(replay_ref(b""), b"");
    assert_eq!(replay_ref(b"N 1 1"), b"E 10\n");
    for seed in 0..4 {
        for kind in Kind::ALL {
            let text = schedule(seed, kind, 300);
            assert_eq!(replay_ref(&text), replay(&text), "{kind:?} {seed}");
        }
    }
}

#[test]
fn replay_ref_and_long_input() {
    assert_eq!(replay_ref(&[b'\n'; 65_536]).len(), 5 * 65_536);
    assert_eq!(replay_ref(&[b'\n'; 65_537]), b"E 14\n");
    assert_eq!(replay_ref(&vec![b'\n'; 3_000_000]), b"E 14\n");
}

#[test]
fn compare_and_streams_tell_a_replay_from_others() {
    let replay_ref = env!("CARGO_BIN_EXE_replay_ref");
    let programs = [
        (env!("CARGO_BIN_EXE_compare"), &["--runs", "7"][..]),
        (env!("CARGO_BIN_EXE_streams"), &[]),
    ];
    for (program, more) in programs {
        let held = |replay: &str| run(program, &[&[replay], more].concat(), b"").status;
        assert!(held(replay_ref).success(), "{program}");
        assert!(!held("/bin/cat").success(), "{program}");
        assert!(!held("/bin/true").success(), "{program}");
    }
}

#[test]
fn each_check_of_streams_can_fail() {
    let found = run(env!("CARGO_BIN_EXE_streams"), &["/bin/true"], b"").stdout;
    let found = String::from_utf8(found).unwrap();
    assert_eq!(found.lines().count(), 6);
    assert!(!found.contains("as it should be"), "{found}");
}

#[test]
fn schedules_prints_schedules() {
    let program = env!("CARGO_BIN_EXE_schedules");
    for kind in Kind::ALL {
        let args = ["--seed", "12", "--kind", kind.name(), "--lines", "77"];
        let output = run(program, &args, b"");
        assert!(output.status.success());
        assert_eq!(output.stdout, schedule(12, kind, 77));
        if kind != Kind::Single {
            let output = run(program, &[&args[..], &["--desks", "13"]].concat(), b"");
            assert!(output.status.success());
            assert_eq!(output.stdout, schedule_of(12, kind, 77, Some(13)));
        }
    }
    for bad in [
        &["--seed", "x"][..],
        &["--kind", "none"],
        &["--lines"],
        &["--what", "1"],
        &["--desks", "17"],
        &["--desks", "0"],
        &["--kind", "traffic", "--desks", "1"],
        &["--kind", "single", "--desks", "2"],
    ] {
        let output = run(program, bad, b"");
        assert_eq!(output.status.code(), Some(2));
        assert!(output.stdout.is_empty());
    }
}
