//! Each refusal in its condition, in its order, and leaving all as found.

mod common;

use common::last;
use evidence::image::to_vec;
use evidence::table::Table;
use evidence::Refusal;

const N: u16 = 3;
const M: u16 = 2;
const DESKS: [u16; 9] = [0, 1, 2, 3, 4, 9, 16, 17, 65_535];
const CELLS: [u16; 6] = [0, 1, 2, 3, 65, 65_535];

/// Desk 1 wrote twice, desk 2 once. 2 has applied 1.1 and read it; 3 holds 2.1
/// and 1.2.
fn table() -> Table {
    let mut t = Table::new(N, M).unwrap();
    t.write(1, 1, 2).unwrap();
    t.deliver(2, 1, 1).unwrap();
    t.read(2, 1).unwrap();
    t.write(1, 1, 1).unwrap();
    t.write(2, 2, 1).unwrap();
    t.deliver(3, 2, 1).unwrap();
    t.deliver(3, 1, 2).unwrap();
    t
}

/// What was received: (desk, writer, number).
const RECEIVED: [(u16, u16, u16); 3] = [(2, 1, 1), (3, 2, 1), (3, 1, 2)];
const WRITTEN: [u16; 4] = [0, 2, 1, 0];

/// Runs a step on a fresh copy; a refused one has to leave it as found.
fn number<T>(step: impl FnOnce(&mut Table) -> Result<T, Refusal>) -> u8 {
    let before = table();
    let mut after = before.clone();
    let refusal = step(&mut after).err();
    if refusal.is_some() {
        assert_eq!(before, after);
        assert_eq!(to_vec(&before), to_vec(&after));
    }
    refusal.map_or(0, Refusal::number)
}

fn first(conditions: &[(u8, bool)]) -> u8 {
    conditions.iter().find(|c| c.1).map_or(0, |c| c.0)
}

#[test]
fn read_1_2() {
    for i in DESKS {
        for x in CELLS {
            let expect = first(&[(1, i == 0 || i > N), (2, x == 0 || x > M)]);
            assert_eq!(number(|t| t.read(i, x).map(drop)), expect, "R {i} {x}");
        }
    }
}

#[test]
fn write_1_2_3() {
    for i in DESKS {
        for x in CELLS {
            for v in [0, 1, 2, 3, 4, 65_535] {
                let expect = first(&[(1, i == 0 || i > N), (2, x == 0 || x > M), (3, v > 2)]);
                assert_eq!(number(|t| t.write(i, x, v)), expect, "W {i} {x} {v}");
            }
        }
    }
}

#[test]
fn write_4_and_5_come_last() {
    // See edges.rs for 4, and for 4 before 5.
    let full = "N 2 1\n".to_string() + &"W 1 1 1\n".repeat(64);
    assert_eq!(last(&format!("{full}W 1 1 1\n")), "E 5");
    assert_eq!(last(&format!("{full}W 3 2 3\n")), "E 1");
    assert_eq!(last(&format!("{full}W 1 2 3\n")), "E 2");
    assert_eq!(last(&format!("{full}W 1 1 3\n")), "E 3");
}

#[test]
fn five_counts_all_desks_and_leaves_the_table() {
    for n in [8, 16] {
        let mut t = Table::new(n, 2).unwrap();
        for step in 0..64 {
            t.write(step % n + 1, 1, 1).unwrap();
        }
        // 1.1 goes to all but one: open still.
        for desk in 2..n {
            t.deliver(desk, 1, 1).unwrap();
        }
        let before = t.clone();
        for desk in 1..=n {
            assert_eq!(t.write(desk, 2, 2), Err(Refusal::OpenFull));
            assert_eq!(t, before);
            assert_eq!(to_vec(&t), to_vec(&before));
        }
        t.deliver(n, 1, 1).unwrap();
        assert_eq!(t.open_count(), 63);
        assert_eq!(t.write(n, 2, 2).unwrap().number, 64 / n + 1);
        assert_eq!(t.write(n, 2, 2), Err(Refusal::OpenFull));
    }
}

#[test]
fn deliver_1_6_7_8() {
    for i in DESKS {
        for u in DESKS {
            for k in [0, 1, 2, 3, 64, 65, 66, 65_535] {
                let bad = |d: u16| d == 0 || d > N;
                let expect = first(&[
                    (1, bad(i) || bad(u)),
                    (6, i == u),
                    (7, !bad(u) && (k == 0 || k > WRITTEN[u as usize])),
                    (8, RECEIVED.contains(&(i, u, k))),
                ]);
                assert_eq!(
                    number(|t| t.deliver(i, u, k).map(drop)),
                    expect,
                    "D {i} {u} {k}"
                );
            }
        }
    }
}

#[test]
fn eight_for_held_for_applied_and_for_writes_open_no_more() {
    let mut t = table();
    assert_eq!(t.deliver(3, 2, 1), Err(Refusal::ReceivedBefore)); // held
    assert_eq!(t.deliver(2, 1, 1), Err(Refusal::ReceivedBefore)); // applied
    t.deliver(3, 1, 1).unwrap();
    // 1.1 is closed now; 1.2 and 2.1 were let go at 3.
    for (i, u, k) in [(2, 1, 1), (3, 1, 1), (3, 1, 2), (3, 2, 1)] {
        assert_eq!(t.deliver(i, u, k), Err(Refusal::ReceivedBefore));
    }
    t.deliver(2, 1, 2).unwrap();
    t.deliver(1, 2, 1).unwrap();
    assert_eq!(t.open_count(), 0);
    for (i, u, k) in [
        (2, 1, 1),
        (3, 1, 1),
        (2, 1, 2),
        (3, 1, 2),
        (1, 2, 1),
        (3, 2, 1),
    ] {
        assert_eq!(t.deliver(i, u, k), Err(Refusal::ReceivedBefore));
    }
    assert_eq!(t.deliver(1, 2, 2), Err(Refusal::NoSuchWrite));
    assert_eq!(t.deliver(1, 3, 1), Err(Refusal::NoSuchWrite));
    assert_eq!(t.deliver(1, 1, 0), Err(Refusal::OwnWrite));
}

#[test]
fn trip_1_9_2() {
    for i in DESKS {
        for count in [0, 1, 2, 16, 17, 62] {
            for x in CELLS {
                // The bad cell stands at the end: a refused trip reads nothing.
                let mut cells = vec![1; count];
                if let Some(cell) = cells.last_mut() {
                    *cell = x;
                }
                let expect = first(&[
                    (1, i == 0 || i > N),
                    (9, count == 0 || count > 16),
                    (2, x == 0 || x > M),
                ]);
                assert_eq!(number(|t| t.trip(i, &cells)), expect, "T {i} {cells:?}");
            }
        }
    }
}

#[test]
fn a_trip_counts_each_cell_by_its_own_status() {
    // Cell 1 is unset, 2 reads 0, 3 reads 1, 4 reads 2.
    let head = "N 1 4\nW 1 2 0\nW 1 3 1\nW 1 4 2\n";
    for (trip, verdict) in [
        ("1", "unknown"),
        ("2", "unknown"),
        ("3", "yes"),
        ("4", "no"),
        ("3 3", "yes"),
        ("3 1", "unknown"),
        ("1 3", "unknown"),
        ("3 2", "unknown"),
        ("1 4", "no"),
        ("4 1", "no"),
        ("2 4", "no"),
        ("3 4 3", "no"),
        ("3 3 3 3 3 3 3 3 3 3 3 3 3 3 3 1", "unknown"),
        ("3 3 3 3 3 3 3 3 3 3 3 3 3 3 3 4", "no"),
    ] {
        assert_eq!(last(&format!("{head}T 1 {trip}\n")), format!("T {verdict}"));
    }
}

/// The reads of a trip join the clock; those of a refused trip do not.
#[test]
fn a_trip_reads_and_a_refused_one_does_not() {
    let head = "N 3 2\nW 1 1 1\nD 2 1 1\n";
    let tail = "W 2 2 1\nD 3 2 1\n";
    assert_eq!(last(&format!("{head}{tail}")), "A 2.1");
    assert_eq!(last(&format!("{head}R 2 1\n{tail}")), "H 1.1");
    assert_eq!(last(&format!("{head}R 2 2\n{tail}")), "A 2.1");
    assert_eq!(last(&format!("{head}T 2 2 1\n{tail}")), "H 1.1");
    assert_eq!(last(&format!("{head}T 2 1 3\n{tail}")), "A 2.1");
    assert_eq!(
        last(&format!("{head}T 2{}\n{tail}", " 1".repeat(17))),
        "A 2.1"
    );
    assert_eq!(last(&format!("{head}T 1 1\n{tail}")), "A 2.1");
}

/// `H` goes by the smallest failing place, the writer's own included.
#[test]
fn the_desk_that_h_names() {
    // 3.2 needs 3.1, and 2.1, which desk 3 has read; desk 1 lacks both.
    let head = "N 4 2\nW 2 1 1\nD 3 2 1\nW 3 2 1\nR 3 1\nW 3 2 0\nD 1 3 2\n";
    assert_eq!(last(head), "H 2.1");
    // 2.2 needs 2.1, and 3.1, which desk 2 has read.
    let head = "N 4 2\nW 3 1 1\nD 2 3 1\nW 2 2 1\nR 2 1\nW 2 2 0\nD 1 2 2\n";
    assert_eq!(last(head), "H 2.1");
    let head = "N 4 2\nW 3 1 1\nD 2 3 1\nW 2 2 1\nR 2 1\nW 2 2 0\nD 1 2 1\nD 1 2 2\n";
    assert_eq!(last(head), "H 3.1");
}

/// The first write that is not applied there: neither the vector's place nor
/// the writer's next one.
#[test]
fn the_write_that_h_names() {
    // Desk 2 has applied 1.1 to 1.4 and read 1.3; the vector of 2.1 has 3.
    let head = "N 3 1\nW 1 1 1\nW 1 1 1\nW 1 1 1\nD 2 1 1\nD 2 1 2\nD 2 1 3\nR 2 1\n\
                W 1 1 1\nD 2 1 4\nW 2 1 1\n";
    for (before, answer) in [
        ("", "H 1.1"),
        ("D 3 1 1\n", "H 1.2"),
        ("D 3 1 1\nD 3 1 2\n", "H 1.3"),
        ("D 3 1 1\nD 3 1 2\nD 3 1 3\n", "A 2.1"),
        // Held writes are not applied ones.
        ("D 3 1 2\n", "H 1.1"),
        ("D 3 1 1\nD 3 1 3\n", "H 1.2"),
        ("D 3 1 4\nD 3 1 1\n", "H 1.2"),
    ] {
        assert_eq!(last(&format!("{head}{before}D 3 2 1\n")), answer);
    }
    // The writer's own.
    for (before, answer) in [
        ("", "H 1.1"),
        ("D 3 1 1\n", "H 1.2"),
        ("D 3 1 2\nD 3 1 1\n", "H 1.3"),
        ("D 3 1 2\nD 3 1 3\nD 3 1 1\n", "A 1.4"),
    ] {
        assert_eq!(last(&format!("{head}{before}D 3 1 4\n")), answer);
    }
}

/// The write that is named may be held there itself, for a larger desk.
#[test]
fn the_write_that_h_names_may_be_held() {
    // 2.1 needs 3.1; 4.1 and 2.2 need both.
    let head =
        "N 4 3\nW 3 1 1\nD 2 3 1\nR 2 1\nW 2 2 1\nD 4 3 1\nD 4 2 1\nR 4 2\nW 4 3 1\nW 2 2 2\n";
    let answers = common::answers(&format!("{head}D 1 2 1\nD 1 4 1\nD 1 2 2\nD 1 3 1\n"));
    assert_eq!(
        answers[10..],
        ["H 3.1", "H 2.1", "H 2.1", "A 3.1 2.1 2.2 4.1"]
    );
}

/// Before each application the search begins at writer 1 again.
#[test]
fn the_search_begins_again() {
    // 4 holds 3.1 (needs 1.1), 2.1 (needs 3.1), 1.2: after 1.1 comes 1.2,
    // then 3.1, which lets 2.1 go.
    let text = "N 4 3\nW 1 1 1\nD 3 1 1\nR 3 1\nW 3 2 1\nD 2 1 1\nD 2 3 1\nR 2 2\nW 2 3 1\n\
                W 1 1 2\nD 4 3 1\nD 4 2 1\nD 4 1 2\nD 4 1 1\n";
    let answers = common::answers(text);
    assert_eq!(
        answers[10..],
        ["H 1.1", "H 1.1", "H 1.1", "A 1.1 1.2 3.1 2.1"]
    );
    // With 2.2 held behind 2.1 and 3.2 behind 3.1, writer 2 goes first when
    // 2.1 is let go.
    let text = "N 4 3\nW 1 1 1\nD 3 1 1\nR 3 1\nW 3 2 1\nW 3 2 0\nD 2 1 1\nD 2 3 1\nR 2 2\n\
                W 2 3 1\nW 2 3 0\nD 4 3 2\nD 4 2 2\nD 4 2 1\nD 4 3 1\nD 4 1 1\n";
    let answers = common::answers(text);
    assert_eq!(answers.last().unwrap(), "A 1.1 3.1 2.1 2.2 3.2");
}

#[test]
fn eleven_in_its_condition() {
    for n in 0..=18 {
        for m in 0..=66 {
            let good = (1..=16).contains(&n) && (1..=64).contains(&m);
            let expect = if good { None } else { Some(Refusal::TableSize) };
            assert_eq!(Table::new(n, m).err(), expect);
        }
    }
}

#[test]
fn the_numbers_are_the_papers() {
    assert_eq!(Refusal::ALL.len(), 15);
    for (refusal, number) in Refusal::ALL.into_iter().zip(1u8..) {
        assert_eq!(refusal.number(), number);
        assert_eq!(Refusal::from_number(number), Some(refusal));
        assert!(refusal.to_string().starts_with(&format!("{number}: ")));
    }
    assert_eq!(Refusal::from_number(0), None);
    assert_eq!(Refusal::from_number(16), None);
}
