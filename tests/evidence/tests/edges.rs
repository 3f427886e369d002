//! Every edge of the section "At each edge".

mod common;

use common::{answers, last};
use evidence::image::{image_len, load, save, to_vec, Fault, BLOCK};
use evidence::table::{Delivery, Name, Table, Verdict};
use evidence::text::{replay_in, Reader, Session};
use evidence::Refusal;

#[test]
fn n_16_and_17_m_64_and_65() {
    for (n, m) in [
        (1, 1),
        (8, 1),
        (9, 1),
        (16, 1),
        (1, 64),
        (8, 64),
        (9, 64),
        (16, 64),
    ] {
        let t = Table::new(n, m).unwrap();
        assert_eq!((u16::from(t.desks()), u16::from(t.cells())), (n, m));
        assert_eq!(last(&format!("N {n} {m}\n")), "N");
    }
    for (n, m) in [
        (17, 64),
        (16, 65),
        (17, 65),
        (0, 1),
        (1, 0),
        (0, 0),
        (256, 1),
        (257, 1),
        (65_535, 1),
        (1, 65_535),
    ] {
        assert_eq!(Table::new(n, m), Err(Refusal::TableSize));
        assert_eq!(last(&format!("N {n} {m}\n")), "E 11");
    }
    // The last desk and the last cell are there, the next ones are not.
    for n in [8, 9, 16] {
        let head = format!("N {n} 64\nW {n} 64 2\n");
        assert_eq!(last(&format!("{head}R {n} 64\n")), format!("R 2 {n}.1"));
        assert_eq!(last(&format!("{head}R {} 64\n", n + 1)), "E 1");
        assert_eq!(last(&format!("{head}D 1 {} 1\n", n + 1)), "E 1");
        assert_eq!(last(&format!("{head}R {n} 65\n")), "E 2");
    }
}

/// A write that waits for desk 16: for a write that was read, and for the
/// writer's own.
#[test]
fn a_hold_names_desk_16() {
    let head = "N 16 2\nW 16 1 1\nD 2 16 1\nR 2 1\nW 2 2 2\n";
    assert_eq!(last(&format!("{head}D 15 2 1\n")), "H 16.1");
    assert_eq!(last(&format!("{head}D 15 2 1\nR 15 2\n")), "R -");
    let tail = "D 15 2 1\nD 15 16 1\n";
    assert_eq!(last(&format!("{head}{tail}")), "A 16.1 2.1");
    assert_eq!(last(&format!("{head}{tail}T 15 1 2\n")), "T no");
    // Desk 16 has its own.
    assert_eq!(last(&format!("{head}D 16 2 1\n")), "A 2.1");
    let own = "N 16 1\nW 16 1 0\nW 16 1 1\nW 16 1 2\n";
    assert_eq!(last(&format!("{own}D 9 16 3\n")), "H 16.1");
    assert_eq!(last(&format!("{own}D 9 16 1\nD 9 16 3\n")), "H 16.2");
    let all = format!("{own}D 9 16 3\nD 9 16 2\nD 9 16 1\n");
    assert_eq!(last(&all), "A 16.1 16.2 16.3");
    // A smaller desk that fails too is named first, of two digits as of one.
    let both = "N 16 3\nW 16 1 1\nW 10 2 1\nD 9 16 1\nD 9 10 1\nT 9 1 2\nW 9 3 1\n";
    assert_eq!(last(&format!("{both}D 1 9 1\n")), "H 10.1");
    assert_eq!(last(&format!("{both}D 1 10 1\nD 1 9 1\n")), "H 16.1");
    let freed = format!("{both}D 1 10 1\nD 1 9 1\nD 1 16 1\n");
    assert_eq!(last(&freed), "A 16.1 9.1");
}

/// 16 desks with 64 open writes, some held: saved, loaded and gone on with.
#[test]
fn sixteen_desks_with_64_open_go_on_after_a_load() {
    let mut text = "N 16 64\n".to_string();
    for k in 0..64 {
        text += &format!("W {} {} {}\n", k % 16 + 1, k + 1, k % 3);
    }
    // Desk 1 holds the later three of each desk from 2 on.
    for desk in 2..=16 {
        for k in (2..=4).rev() {
            text += &format!("D 1 {desk} {k}\n");
        }
    }
    assert_eq!(last(&text), "H 16.1");
    let mut session = Session::new();
    for line in Reader::new(text.as_bytes()) {
        session.answer(line, &mut Vec::new());
    }
    let table = session.table().unwrap().clone();
    assert_eq!(table.open_count(), 64);
    let image = to_vec(&table).unwrap();
    assert_eq!(image.len(), 105 * BLOCK);
    let loaded = load(&image).unwrap();
    assert_eq!(loaded, table);
    let mut rest = "W 16 1 1\n".to_string();
    for desk in (2..=16).rev() {
        rest += &format!("D 1 {desk} 1\n");
    }
    for desk in 2..=16 {
        rest += &format!("D {desk} 1 1\n");
    }
    rest += "W 16 1 1\nW 16 1 1\nR 16 1\nR 1 64\n";
    let (mut whole, mut parted) = (session, Session::with_table(loaded));
    let (mut a, mut b) = (Vec::new(), Vec::new());
    for line in Reader::new(rest.as_bytes()) {
        whole.answer(line, &mut a);
        parted.answer(line, &mut b);
    }
    assert_eq!(a, b);
    assert_eq!(whole.table(), parted.table());
    let answers = String::from_utf8(a).unwrap();
    let answers: Vec<&str> = answers.lines().collect();
    assert_eq!(answers[..2], ["E 5", "A 16.1 16.2 16.3 16.4"]);
    assert_eq!(answers[15], "A 2.1 2.2 2.3 2.4");
    // 1.1 is applied everywhere now, and one more write fits.
    assert_eq!(answers[31..], ["W 16.5", "E 5", "R 1 16.5", "R 0 16.4"]);
}

/// The longest answer line: 64 names of 9 bytes.
#[test]
fn the_longest_answer_line() {
    let mut t = Table::new(16, 1).unwrap();
    for number in 1..=65_535u16 {
        t.write(16, 1, 0).unwrap();
        if number <= 65_535 - 64 {
            for desk in 1..=15 {
                t.deliver(desk, 16, number).unwrap();
            }
        }
    }
    let first = 65_535 - 63;
    let text: String = (first..=65_535)
        .rev()
        .map(|k| format!("D 1 16 {k}\n"))
        .collect();
    let answers = replay_in(Session::with_table(t), text.as_bytes());
    let mut lines: Vec<&[u8]> = answers.split_inclusive(|&b| b == b'\n').collect();
    let longest = lines.pop().unwrap();
    let names: String = (first..=65_535).map(|k| format!(" 16.{k}")).collect();
    assert_eq!(longest, format!("A{names}\n").as_bytes());
    assert_eq!(longest.len(), 578);
    assert!(lines.iter().all(|line| *line == b"H 16.65472\n"));
}

#[test]
fn status_2_and_3() {
    assert_eq!(last("N 1 1\nW 1 1 2\n"), "W 1.1");
    assert_eq!(last("N 1 1\nW 1 1 3\n"), "E 3");
    assert_eq!(last("N 1 1\nW 1 1 65535\n"), "E 3");
    // A refused write is not counted.
    assert_eq!(last("N 1 1\nW 1 1 3\nW 1 1 0\n"), "W 1.1");
}

#[test]
fn trip_16_and_17() {
    let mut t = Table::new(2, 3).unwrap();
    t.write(1, 3, 1).unwrap();
    assert_eq!(t.trip(1, &[3; 16]), Ok(Verdict::Yes));
    assert_eq!(t.trip(1, &[3; 17]), Err(Refusal::TripLength));
    assert_eq!(t.trip(1, &[]), Err(Refusal::TripLength));
    assert_eq!(t.trip(1, &[3]), Ok(Verdict::Yes));
    let cells = |count: usize| " 3".repeat(count);
    let head = "N 2 3\nW 1 3 1\n";
    assert_eq!(last(&format!("{head}T 1{}\n", cells(16))), "T yes");
    assert_eq!(last(&format!("{head}T 1{}\n", cells(17))), "E 9");
    assert_eq!(last(&format!("{head}T 1\n")), "E 9");
}

#[test]
fn write_65535_and_the_next_with_one_desk() {
    let mut t = Table::new(1, 1).unwrap();
    for number in 1..=65_535u16 {
        assert_eq!(t.write(1, 1, number % 3), Ok(Name { desk: 1, number }));
        assert_eq!(t.open_count(), 0);
    }
    let before = t.clone();
    assert_eq!(t.write(1, 1, 1), Err(Refusal::WritesSpent));
    assert_eq!(t, before);
    assert_eq!(t.read(1, 1).unwrap().unwrap().write.number, 65_535);
    // Refusals 1, 2 and 3 come before 4.
    assert_eq!(t.write(2, 2, 3), Err(Refusal::Desk));
    assert_eq!(t.write(1, 2, 3), Err(Refusal::Cell));
    assert_eq!(t.write(1, 1, 3), Err(Refusal::Status));
    // It is met after a load too.
    let mut t = load(&to_vec(&t).unwrap()).unwrap();
    assert_eq!(t, before);
    assert_eq!(t.write(1, 1, 1), Err(Refusal::WritesSpent));
}

#[test]
fn write_65535_and_the_next_with_two_desks() {
    let mut t = Table::new(2, 1).unwrap();
    for number in 1..=65_535u16 {
        assert_eq!(t.write(1, 1, 0), Ok(Name { desk: 1, number }));
        if number > 65_535 - 64 {
            continue;
        }
        let names = [Name { desk: 1, number }];
        assert_eq!(t.deliver(2, 1, number), Ok(Delivery::Applied(&names)));
    }
    // 64 are open as well: 4 comes before 5 for desk 1, desk 2 finds 5.
    assert_eq!(t.open_count(), 64);
    assert_eq!(t.write(1, 1, 0), Err(Refusal::WritesSpent));
    assert_eq!(t.write(2, 1, 0), Err(Refusal::OpenFull));
    // All the rest from behind; the last one lets 64 go.
    let missing = Name {
        desk: 1,
        number: 65_535 - 63,
    };
    for number in (65_535 - 62..=65_535).rev() {
        assert_eq!(t.deliver(2, 1, number), Ok(Delivery::Held(missing)));
    }
    let Ok(Delivery::Applied(names)) = t.deliver(2, 1, 65_535 - 63) else {
        panic!("not applied");
    };
    assert_eq!(names.len(), 64);
    assert_eq!(names[63].number, 65_535);
    assert_eq!(t.open_count(), 0);
    assert_eq!(t.deliver(2, 1, 65_535), Err(Refusal::ReceivedBefore));
    assert_eq!(t.deliver(2, 1, 1), Err(Refusal::ReceivedBefore));
    assert_eq!(t.write(1, 1, 0), Err(Refusal::WritesSpent));
    assert_eq!(t.write(2, 1, 0).unwrap().number, 1);
}

/// The longest held answer: desk 1 lacks 3.65535, which desk 2 has read.
#[test]
fn a_hold_names_write_65535() {
    let mut t = Table::new(3, 1).unwrap();
    for number in 1..=65_535u16 {
        t.write(3, 1, 0).unwrap();
        t.deliver(2, 3, number).unwrap();
        if number < 65_535 {
            t.deliver(1, 3, number).unwrap();
        }
    }
    t.read(2, 1).unwrap();
    t.write(2, 1, 1).unwrap();
    let answers = replay_in(Session::with_table(t), b"D 1 2 1\nD 1 3 65535\n");
    assert_eq!(answers, b"H 3.65535\nA 3.65535 2.1\n");
}

#[test]
fn line_128_and_129_bytes() {
    // A good trip line of 62 cells, one of two digits, is 128 bytes long.
    let line = format!("T 1 10{}", " 1".repeat(61));
    assert_eq!(line.len(), 128);
    assert_eq!(last(&format!("N 1 1\n{line}\n")), "E 9");
    let line = format!("T 1{}", " 1".repeat(63));
    assert_eq!(line.len(), 129);
    assert_eq!(last(&format!("N 1 1\n{line}\n")), "E 10");
    // Also with a desk that would be refused by its number.
    let line = format!("T 9 10{}", " 1".repeat(61));
    assert_eq!(last(&format!("N 1 1\n{line}\n")), "E 1");
    // A long line is read to its LF, and the next one is a line again.
    let long = "x".repeat(1_000);
    assert_eq!(
        answers(&format!("N 1 1\n{long}\nR 1 1\n")),
        ["N", "E 10", "R -"]
    );
}

#[test]
fn sixty_four_undelivered_writes_with_two_desks() {
    let mut text = "N 2 1\n".to_string() + &"W 1 1 1\n".repeat(64);
    assert_eq!(last(&text), "W 1.64");
    // The next is refused, from either desk.
    text += "W 1 1 1\n";
    assert_eq!(last(&text), "E 5");
    text += "W 2 1 1\n";
    assert_eq!(last(&text), "E 5");
    // One delivered and held: received everywhere, and open still.
    text += "D 2 1 2\n";
    assert_eq!(last(&text), "H 1.1");
    text += "W 1 1 1\n";
    assert_eq!(last(&text), "E 5");
    // One delivered and applied takes the held one along.
    text += "D 2 1 1\n";
    assert_eq!(last(&text), "A 1.1 1.2");
    text += "W 1 1 1\nW 2 1 1\n";
    assert_eq!(last(&text), "W 2.1");
    assert_eq!(answers(&text).iter().rev().nth(1).unwrap(), "W 1.65");
    text += "W 2 1 1\n";
    assert_eq!(last(&text), "E 5");
}

#[test]
fn one_delivered_and_applied_then_accepted() {
    let text =
        "N 2 1\n".to_string() + &"W 1 1 1\n".repeat(64) + "W 1 1 1\nD 2 1 1\nW 1 1 1\nW 1 1 1\n";
    let answers = answers(&text);
    assert_eq!(answers[65..], ["E 5", "A 1.1", "W 1.65", "E 5"]);
}

#[test]
fn sixty_four_applied_by_one_delivery() {
    let mut text = "N 2 1\n".to_string() + &"W 1 1 1\n".repeat(64);
    for number in (2..=64).rev() {
        text += &format!("D 2 1 {number}\n");
        assert_eq!(last(&text), "H 1.1");
    }
    text += "D 2 1 1\n";
    let names: String = (1..=64).map(|k| format!(" 1.{k}")).collect();
    assert_eq!(last(&text), format!("A{names}"));
}

#[test]
fn with_one_desk_5_is_not_met() {
    let text = "N 1 1\n".to_string() + &"W 1 1 1\n".repeat(200);
    assert_eq!(last(&text), "W 1.200");
}

#[test]
fn an_all_zero_block_is_damaged() {
    assert_eq!(load(&[0; BLOCK]), Err(Fault::Check(0)));
    assert_eq!(load(&[0; 3 * BLOCK]), Err(Fault::Check(0)));
    let good = to_vec(&Table::new(2, 2).unwrap()).unwrap();
    for block in 0..good.len() / BLOCK {
        let mut image = good.clone();
        image[block * BLOCK..][..BLOCK].fill(0);
        assert_eq!(load(&image), Err(Fault::Check(block)));
    }
    let mut image = good.clone();
    image.extend([0; BLOCK]);
    assert_eq!(load(&image), Err(Fault::Check(good.len() / BLOCK)));
}

#[test]
fn a_buffer_one_byte_short_and_bytes_past_the_image() {
    let mut t = Table::new(2, 26).unwrap();
    t.write(1, 26, 2).unwrap();
    let length = image_len(&t);
    assert_eq!(length, (1 + 2 + 4 + 1) * BLOCK);
    for short in [0, 1, BLOCK, length - BLOCK, length - 1] {
        let mut buffer = vec![0xa5; short];
        assert_eq!(save(&t, &mut buffer), Err(Refusal::Length));
        assert!(buffer.iter().all(|&b| b == 0xa5));
    }
    let mut exact = vec![0xa5; length];
    assert_eq!(save(&t, &mut exact), Ok(length));
    assert_eq!(exact, to_vec(&t).unwrap());
    for past in [1, 511, 512, 5_000] {
        let mut buffer = vec![0xa5; length + past];
        assert_eq!(save(&t, &mut buffer), Ok(length));
        assert_eq!(buffer[..length], exact[..]);
        assert!(buffer[length..].iter().all(|&b| b == 0xa5));
    }
}
