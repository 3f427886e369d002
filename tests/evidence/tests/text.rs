//! Schedule text and `replay`, by document 01 and readings 1 to 7.

mod common;

use common::{answers, last};
use evidence::text::{line_at, parse, replay, Line, Reader, Step};
use evidence::Refusal;

#[test]
fn lines_are_parts_of_the_callers_bytes() {
    let text = b"N 1 1\n\nR 1 1";
    let mut reader = Reader::new(text);
    let line = |bytes: &'static [u8], ended| Some(Line { bytes, ended });
    assert_eq!(reader.place(), 0);
    let first = reader.next().unwrap();
    assert_eq!(first.bytes.as_ptr(), text.as_ptr());
    assert_eq!(Some(first), line(b"N 1 1", true));
    assert_eq!(reader.place(), 6);
    assert_eq!(reader.next(), line(b"", true));
    assert_eq!(reader.place(), 7);
    assert_eq!(reader.next(), line(b"R 1 1", false));
    assert_eq!(reader.place(), 12);
    assert_eq!(reader.next(), None);
    assert_eq!(reader.place(), 12);
    // At the end an empty part, and past the end as at the end.
    let found = |place| {
        let (line, next) = line_at(text, place);
        (line.bytes, line.ended, next)
    };
    assert_eq!(found(0), (&b"N 1 1"[..], true, 6));
    assert_eq!(found(3), (&b" 1"[..], true, 6));
    assert_eq!(found(6), (&b""[..], true, 7));
    assert_eq!(found(7), (&b"R 1 1"[..], false, 12));
    assert_eq!(found(12), (&b""[..], false, 12));
    assert_eq!(found(13), (&b""[..], false, 12));
    assert_eq!(found(usize::MAX), (&b""[..], false, 12));
}

#[test]
fn one_answer_line_for_each_line() {
    assert_eq!(replay(b""), b"");
    assert_eq!(replay(b"\n"), b"E 10\n");
    assert_eq!(replay(b"\n\n"), b"E 10\nE 10\n");
    assert_eq!(replay(b"N 1 1\n"), b"N\n");
    assert_eq!(replay(b"N 1 1\n\n"), b"N\nE 10\n");
    assert_eq!(replay(b"x"), b"E 10\n");
    assert_eq!(replay(b"N 1 1"), b"E 10\n");
    assert_eq!(replay(b"N 1 1\nR 1 1"), b"N\nE 10\n");
}

/// Reading 2: the last line without LF is not run.
#[test]
fn a_last_line_without_lf_is_not_run() {
    assert_eq!(answers("N 1 1\nW 1 1 1\nW 1 1 2"), ["N", "W 1.1", "E 10"]);
    assert_eq!(
        answers("N 1 1\nW 1 1 1\nR 1 1\n"),
        ["N", "W 1.1", "R 1 1.1"]
    );
}

/// Reading 3.
#[test]
fn input_of_65536_bytes_and_one_more() {
    let mut text = "N 1 1\n".to_string();
    while text.len() + 6 <= 65_536 {
        text += "R 1 1\n";
    }
    text += &"\n".repeat(65_536 - text.len());
    assert_eq!(text.len(), 65_536);
    let all = answers(&text);
    assert_eq!(all.len(), text.lines().count());
    assert_eq!((all[0].as_str(), all[1].as_str()), ("N", "R -"));
    text += "\n";
    assert_eq!(replay(text.as_bytes()), b"E 14\n");
    assert_eq!(replay(&[b'x'; 65_536]), b"E 10\n");
    assert_eq!(replay(&[b'x'; 65_537]), b"E 14\n");
    assert_eq!(replay(&[b'\n'; 65_536]).len(), 5 * 65_536);
    assert_eq!(replay(&[b'\n'; 1_000_000]), b"E 14\n");
}

/// Reading 4: numbers.
#[test]
fn numbers_above_65535_are_no_step() {
    assert_eq!(last("N 65536 1\n"), "E 10");
    assert_eq!(last("N 65535 1\n"), "E 11");
    assert_eq!(last("N 1 65536\n"), "E 10");
    assert_eq!(last("N 1 65535\n"), "E 11");
    let head = "N 2 2\nW 1 1 1\n";
    for (good, number) in [
        ("R B 1", 1),
        ("R 1 B", 2),
        ("W B 1 1", 1),
        ("W 1 B 1", 2),
        ("W 1 1 B", 3),
        ("D B 1 1", 1),
        ("D 2 B 1", 1),
        ("D 2 1 B", 7),
        ("T B 1", 1),
        ("T 1 B", 2),
        ("T 1 1 B", 2),
    ] {
        let with = |big: &str| last(&format!("{head}{}\n", good.replace('B', big)));
        assert_eq!(with("65535"), format!("E {number}"), "{good}");
        for big in [
            "65536",
            "65537",
            "99999",
            "100000",
            "131073",
            "4294967297",
            "18446744073709551617",
            "00001",
            "01",
            "00",
            "-1",
            "+1",
            "1.",
            "1a",
            "",
            " 1",
            "1 ",
            "\t1",
            "1\r",
            "1\0",
            "\u{661}",
            "0x1",
            "1e0",
            "1_0",
        ] {
            assert_eq!(with(big), "E 10", "{good} {big:?}");
        }
    }
}

/// Reading 4: other marks.
#[test]
fn what_is_no_step() {
    let head = "N 2 2\nW 1 1 1\n";
    for line in [
        "",
        " ",
        "R",
        "R ",
        "R 1",
        "R 1 ",
        "R 1 1 ",
        " R 1 1",
        "R  1 1",
        "R 1  1",
        "R 1 1\r",
        "R\t1\t1",
        "R 1\t1",
        "R\x001 1",
        "r 1 1",
        "R1 1",
        "R11",
        "R 1 1 1",
        "R 1,1",
        "W 1 1",
        "W 1 1 1 1",
        "w 1 1 1",
        "D 2 1",
        "D 2 1 1 1",
        "d 2 1 1",
        "T",
        "T ",
        "T 1 ",
        "T 1 1 ",
        "T 1  1",
        "t 1 1",
        "X 1 1",
        "RR 1 1",
        "\u{feff}R 1 1",
        "R 1 1\u{e9}",
        "# R 1 1",
        "1 1",
        "E 1",
    ] {
        assert_eq!(last(&format!("{head}{line}\n")), "E 10", "{line:?}");
    }
    let mut bytes = b"N 1 1\nR 1 \xff\n\xff\xfe\nR 1 1\n".to_vec();
    assert_eq!(replay(&bytes), b"N\nE 10\nE 10\nR -\n");
    bytes.truncate(6);
    for byte in (0..=255u8).filter(|&b| b != b'\n' && !b.is_ascii_digit()) {
        let mut text = bytes.clone();
        text.extend([b'R', b' ', b'1', b' ', b'1', byte, b'\n']);
        assert_eq!(replay(&text), b"N\nE 10\n", "{byte}");
        let mut text = bytes.clone();
        text.extend([byte, b' ', b'1', b' ', b'1', b'\n']);
        let expect: &[u8] = if byte == b'R' {
            b"N\nR -\n"
        } else {
            b"N\nE 10\n"
        };
        // `T 1 1` and `N 1 1` have a form of their own.
        if byte == b'T' {
            assert_eq!(replay(&text), b"N\nT unknown\n");
        } else {
            assert_eq!(replay(&text), expect, "{byte}");
        }
    }
}

/// Reading 5.
#[test]
fn before_and_after_n() {
    for line in [
        "R 1 1", "W 1 1 1", "D 1 2 1", "T 1", "T 1 1", "R 9 9", "N", "N 1", "N 1 1 1",
    ] {
        assert_eq!(last(&format!("{line}\n")), "E 10", "{line}");
        assert_eq!(last(&format!("N 0 1\n{line}\n")), "E 10", "{line}");
    }
    assert_eq!(
        answers("N 17 1\nR 1 1\nN 1 65\nN 2 2\nN 2 2\nN 17 9\nN 0 0\nN x\nR 2 2\n"),
        ["E 11", "E 10", "E 11", "N", "E 10", "E 10", "E 10", "E 10", "R -"]
    );
}

/// Reading 6.
#[test]
fn trips_on_the_line() {
    let head = "N 2 2\n";
    let trip = |desk: u16, count: usize| last(&format!("{head}T {desk}{}\n", " 9".repeat(count)));
    assert_eq!(trip(1, 0), "E 9");
    assert_eq!(trip(3, 0), "E 1");
    assert_eq!(trip(1, 1), "E 2");
    assert_eq!(trip(1, 16), "E 2");
    for count in 17..=62 {
        assert_eq!(trip(1, count), "E 9");
        assert_eq!(trip(0, count), "E 1");
        assert_eq!(trip(3, count), "E 1");
    }
    // 63 cells make 129 bytes.
    assert_eq!(trip(1, 63), "E 10");
    assert_eq!(last(&format!("{head}T\n")), "E 10");
}

/// Reading 7.
#[test]
fn deliveries_on_the_line() {
    let head = "N 3 1\nW 1 1 1\nW 1 1 1\nD 2 1 2\n";
    for (line, answer) in [
        ("D 0 1 1", "E 1"),
        ("D 2 0 1", "E 1"),
        ("D 4 4 0", "E 1"),
        ("D 1 4 1", "E 1"),
        ("D 1 1 0", "E 6"),
        ("D 1 1 1", "E 6"),
        ("D 1 1 9", "E 6"),
        ("D 3 3 0", "E 6"),
        ("D 2 1 0", "E 7"),
        ("D 2 1 3", "E 7"),
        ("D 1 2 1", "E 7"),
        ("D 2 1 2", "E 8"),
        ("D 2 1 1", "A 1.1 1.2"),
    ] {
        assert_eq!(last(&format!("{head}{line}\n")), answer, "{line}");
    }
    assert_eq!(last(&format!("{head}D 2 1 1\nD 2 1 1\n")), "E 8");
    assert_eq!(last(&format!("{head}D 2 1 1\nD 2 1 2\n")), "E 8");
}

/// Unset is separate from a written 0.
#[test]
fn unset_and_written_0() {
    assert_eq!(
        answers("N 1 1\nR 1 1\nW 1 1 0\nR 1 1\n"),
        ["N", "R -", "W 1.1", "R 0 1.1"]
    );
}

#[test]
fn a_refused_line_counts_as_read_and_changes_nothing() {
    let (good, expect) = common::session();
    // Nonsense after every line: the good lines are answered as before.
    let mut text = Vec::new();
    for line in good.split_inclusive(|&b| b == b'\n') {
        text.extend(line);
        text.extend(b"N 3 2\nR 9 9\nW 1 1 3\nD 1 1 1\nT 1\nT 1 3\n\n");
    }
    let out = replay(&text);
    let lines: Vec<&[u8]> = out.split_inclusive(|&b| b == b'\n').collect();
    let kept: Vec<u8> = lines
        .iter()
        .step_by(8)
        .copied()
        .flatten()
        .copied()
        .collect();
    assert_eq!(kept, expect);
    for group in lines.chunks(8) {
        assert_eq!(
            group[1..].concat(),
            b"E 10\nE 1\nE 3\nE 6\nE 9\nE 2\nE 10\n"
        );
    }
}

#[test]
fn steps_of_the_parser() {
    assert_eq!(parse(b"N 16 64"), Ok(Step::New { n: 16, m: 64 }));
    assert_eq!(
        parse(b"R 0 65535"),
        Ok(Step::Read {
            desk: 0,
            cell: 65_535
        })
    );
    assert_eq!(
        parse(b"W 1 2 3"),
        Ok(Step::Write {
            desk: 1,
            cell: 2,
            status: 3
        })
    );
    assert_eq!(
        parse(b"D 1 2 3"),
        Ok(Step::Deliver {
            desk: 1,
            writer: 2,
            number: 3
        })
    );
    let Ok(Step::Trip { desk, cells }) = parse(b"T 7 1 2 65535") else {
        panic!("no trip");
    };
    assert_eq!((desk, &cells[..]), (7, &[1, 2, 65_535][..]));
    assert_eq!(parse(b""), Err(Refusal::NoStep));
    assert_eq!(parse(&[b'T'; 129]), Err(Refusal::NoStep));
}
