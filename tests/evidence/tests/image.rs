//! The saved image.

mod common;

use common::rules::{broken, finding, Rule};
use evidence::gen::{damage, damaged_image, in_edition, odd_image, schedule, schedule_from};
use evidence::gen::{schedule_of, table, worn_image, Damage, Kind, Rng};
use evidence::image::{
    block_count, check_of, image_len, keeps_rules, load, save, to_vec, Edition, Fault, BLOCK,
    MAX_BLOCKS,
};
use evidence::table::{Mark, Table};
use evidence::text::{replay, replay_in, Reader, Session};
use evidence::Refusal;
use std::collections::{BTreeMap, BTreeSet};

#[test]
fn a_fresh_table_of_one_desk_and_one_cell() {
    let image = to_vec(&Table::new(1, 1).unwrap()).unwrap();
    assert_eq!(image.len(), 3 * BLOCK);
    assert_eq!(image[508..512], [15, 0, 0, 0]);
    let mut expect = vec![0; 3 * BLOCK];
    expect[..7].copy_from_slice(&[1, 1, 0, 0, 1, 1, 0]);
    expect[512..517].copy_from_slice(&[2, 1, 1, 0, 1]);
    expect[1024..1028].copy_from_slice(&[3, 1, 2, 0]);
    expect[508] = 15;
    expect[1020] = 1 + 2 + 2 + 3 + 5;
    expect[1532] = 1 + 3 + 2 + 2 * 3;
    assert_eq!(image, expect);
}

#[test]
fn the_largest_check() {
    assert_eq!(check_of(&[255; BLOCK]), 32_967_931);
    assert_eq!(1 + 255 * (508 * 509 / 2), 32_967_931);
    assert_eq!(check_of(&[0; BLOCK]), 1);
    // The check's own bytes do not count.
    let mut block = [0; BLOCK];
    block[508..].fill(255);
    assert_eq!(check_of(&block), 1);
    for j in 0..508 {
        let mut block = [0; BLOCK];
        block[j] = 3;
        assert_eq!(check_of(&block), 1 + 3 * (j as u32 + 1));
    }
}

#[test]
fn the_largest_image() {
    // Edition 2; edition 1; the smallest table of edition 2.
    for (n, blocks, cells, open) in [(16, 105, 80, 8), (8, 37, 24, 4), (9, 63, 45, 8)] {
        assert_eq!(block_count(n, 64, 64), blocks);
        let mut t = Table::new(n as u16, 64).unwrap();
        for step in 0..64 {
            t.write(step % n as u16 + 1, step + 1, 2).unwrap();
        }
        let image = to_vec(&t).unwrap();
        assert_eq!(image.len(), blocks * BLOCK);
        assert_eq!(load(&image), Ok(t));
        // Kinds and places.
        let kinds: Vec<u8> = image.chunks(BLOCK).map(|b| b[0]).collect();
        let expect = [vec![1], vec![2; n], vec![3; cells], vec![4; open]].concat();
        assert_eq!(kinds, expect);
        let edition = if n > 8 { 2 } else { 1 };
        for (place, block) in image.chunks(BLOCK).enumerate() {
            assert_eq!(block[1..4], [edition, place as u8, 0]);
        }
    }
    // None is larger.
    let sizes = |desks: std::ops::RangeInclusive<usize>| {
        desks.flat_map(|n| (1..=64).flat_map(move |m| (0..=64).map(move |o| block_count(n, m, o))))
    };
    assert_eq!(sizes(1..=16).max(), Some(MAX_BLOCKS));
    assert_eq!(sizes(1..=8).max(), Some(37));
}

#[test]
fn block_counts_at_their_edges() {
    for (m, per_desk) in [(1, 1), (25, 1), (26, 2), (50, 2), (51, 3), (64, 3)] {
        let t = Table::new(2, m).unwrap();
        assert_eq!(image_len(&t), (1 + 2 + 2 * per_desk) * BLOCK);
    }
    for (m, per_desk) in [
        (1, 1),
        (14, 1),
        (15, 2),
        (28, 2),
        (29, 3),
        (42, 3),
        (43, 4),
        (56, 4),
        (57, 5),
        (64, 5),
    ] {
        let t = Table::new(9, m).unwrap();
        assert_eq!(image_len(&t), (1 + 9 + 9 * per_desk) * BLOCK);
    }
    for (n, per_block) in [(2, 18), (8, 18), (9, 9), (16, 9)] {
        let mut t = Table::new(n, 1).unwrap();
        for open in 0..=64 {
            assert_eq!(t.open_count(), open);
            let image = to_vec(&t).unwrap();
            let blocks = 1 + 2 * usize::from(n) + open.div_ceil(per_block);
            assert_eq!(image.len(), blocks * BLOCK);
            assert_eq!(load(&image), Ok(t.clone()));
            let _ = t.write(1 + open as u16 % n, 1, 1);
        }
    }
}

/// By hand: document 01's session up to its held write.
#[test]
fn an_image_by_hand() {
    let text = b"N 3 2\nW 1 1 2\nD 2 1 1\nR 2 1\nW 1 1 1\nD 2 1 2\nW 2 2 1\nD 3 2 1\n";
    let mut session = Session::new();
    for line in Reader::new(text) {
        session.answer(line, &mut Vec::new());
    }
    let image = to_vec(session.table().unwrap()).unwrap();
    assert_eq!(image.len(), 8 * BLOCK);
    let payload = |block: usize, count: usize| &image[block * BLOCK + 4..][..count];
    assert_eq!(payload(0, 4), [3, 2, 3, 0]);
    // Desk 2 has applied 1.1, 1.2 and 2.1; its clock is (1,1,0).
    let mut desk = [0; 37];
    desk[0] = 2;
    desk[4] = 2;
    desk[6] = 1;
    desk[20] = 1;
    desk[22] = 1;
    assert_eq!(payload(2, 37), desk);
    // Desk 2: cell 1 is 1 by 1.2 (2,0,0), cell 2 is 1 by 2.1 (1,1,0).
    let mut cells = [0; 60];
    cells[..6].copy_from_slice(&[1, 1, 0, 0, 2, 0]);
    cells[20..28].copy_from_slice(&[2, 1, 0, 0, 1, 0, 1, 0]);
    assert_eq!(payload(5, 60), cells);
    assert_eq!(payload(6, 504), [0; 504]);
    // Open: 1.1 (missing at 3), 1.2 (missing at 3), 2.1 (held at 3).
    let mut open = [0; 84 + 28];
    open[..5].copy_from_slice(&[1, 2, 1, 0, 1]);
    open[20..23].copy_from_slice(&[2, 2, 0]);
    open[28..33].copy_from_slice(&[1, 1, 1, 0, 2]);
    open[48..51].copy_from_slice(&[2, 2, 0]);
    open[56..63].copy_from_slice(&[2, 1, 2, 0, 1, 0, 1]);
    open[76..79].copy_from_slice(&[0, 2, 1]);
    assert_eq!(payload(7, 84 + 28), open);
}

/// By hand: 16.1 is applied at desk 9 and read there, and 9.1 is held at desk 2.
#[test]
fn an_image_of_edition_2_by_hand() {
    let text = b"N 16 15\nW 16 15 1\nD 9 16 1\nR 9 15\nW 9 1 2\nD 2 9 1\n";
    let mut session = Session::new();
    for line in Reader::new(text) {
        session.answer(line, &mut Vec::new());
    }
    let image = to_vec(session.table().unwrap()).unwrap();
    assert_eq!(image.len(), (1 + 16 + 2 * 16 + 1) * BLOCK);
    assert!(image.chunks(BLOCK).all(|block| block[1] == 2));
    let payload = |block: usize| &image[block * BLOCK + 4..][..504];
    let mut head = [0; 504];
    head[..3].copy_from_slice(&[16, 15, 2]);
    assert_eq!(payload(0), head);
    // Desk 9: counts and then clock, 1 at places 9 and 16 of both.
    let mut desk = [0; 504];
    desk[0] = 9;
    for place in [8, 15] {
        desk[4 + 2 * place] = 1;
        desk[36 + 2 * place] = 1;
    }
    assert_eq!(payload(9), desk);
    // Desk 2 has nothing but its number.
    let mut desk = [0; 504];
    desk[0] = 2;
    assert_eq!(payload(2), desk);
    // Desk 9: cell 1 is 2 by 9.1, cell 15, in the next block, is 1 by 16.1.
    let first = 17 + 2 * 8;
    let mut cells = [0; 504];
    cells[..2].copy_from_slice(&[9, 2]);
    cells[4 + 2 * 8] = 1;
    cells[4 + 2 * 15] = 1;
    assert_eq!(payload(first), cells);
    let mut cells = [0; 504];
    cells[..2].copy_from_slice(&[16, 1]);
    cells[4 + 2 * 15] = 1;
    assert_eq!(payload(first + 1), cells);
    // Open: 9.1, held at 2, and 16.1, applied at 9.
    let mut open = [0; 504];
    open[..3].copy_from_slice(&[9, 2, 1]);
    open[4 + 2 * 8] = 1;
    open[4 + 2 * 15] = 1;
    open[36 + 1] = 1;
    open[36 + 8] = 2;
    open[52..55].copy_from_slice(&[16, 1, 15]);
    open[52 + 4 + 2 * 15] = 1;
    open[52 + 36 + 8] = 2;
    open[52 + 36 + 15] = 2;
    assert_eq!(payload(49), open);
}

/// A table in any shape that is not the one its n asks for is refused with 13,
/// whatever it holds. The generator makes the same images.
#[test]
fn a_wrong_shape_is_refused() {
    use common::slow::{Shape, ONE, TWO};
    let wrong = [
        ("edition 1 for 9 desks and more", 9, ONE),
        ("edition 2 for up to 8", 1, TWO),
        ("edition 0", 1, Shape { edition: 0, ..ONE }),
        ("edition 3 for 9 and more", 9, Shape { edition: 3, ..TWO }),
        (
            "the number alone, 9 and more",
            9,
            Shape { edition: 1, ..TWO },
        ),
        ("the number alone, up to 8", 1, Shape { edition: 2, ..ONE }),
    ];
    for (what, least, shape) in wrong {
        for seed in 0..60 {
            let kind = [Kind::Traffic, Kind::Full][seed as usize % 2];
            let n = least + seed as usize % 8;
            let desks = if n == 1 { 2 } else { n };
            let text = schedule_of(seed, kind, 1 + seed as usize * 3, Some(desks));
            let slow = common::slow::replay(&text).1.unwrap();
            assert!(load(&slow.image()).is_ok(), "{what}");
            let image = slow.image_in(shape);
            let told = format!("{what}, seed {seed}");
            // An edition that is none stands nowhere; all other shapes can stand.
            let place = match shape.edition {
                1 | 2 => image.len() / BLOCK,
                _ => 0,
            };
            assert_eq!(load(&image), Err(Fault::Rule(place)), "{told}");
            assert_ne!(broken(&image), [], "{told}");
            let made = match (shape.edition, shape.places) {
                (1, 8) => in_edition(&slow.image(), Edition::TWO, Edition::ONE),
                (2, 16) => in_edition(&slow.image(), Edition::ONE, Edition::TWO),
                _ => continue,
            };
            assert!(made == Some(image), "{told}");
            assert_eq!(
                in_edition(&slow.image()[BLOCK..], Edition::ONE, Edition::TWO),
                None
            );
        }
    }
    // Slips in the shape of edition 2 itself, on a full table.
    let writes = (0..64).map(|k| format!("W {} {} 2\n", k % 16 + 1, k + 1));
    let text = format!("N 16 64\n{}", writes.collect::<String>()).into_bytes();
    let slow = common::slow::replay(&text).1.unwrap();
    let mut session = Session::new();
    for line in Reader::new(&text) {
        session.answer(line, &mut Vec::new());
    }
    let right = to_vec(session.table().unwrap()).unwrap();
    assert!(right == slow.image());
    for (what, shape) in [
        ("vectors of 8 places", Shape { places: 8, ..TWO }),
        ("13 cells to a block", Shape { cells: 13, ..TWO }),
        ("15 cells to a block", Shape { cells: 15, ..TWO }),
        ("8 open writes to a block", Shape { opens: 8, ..TWO }),
    ] {
        let image = slow.image_in(shape);
        assert!(image != right, "{what}");
        // If it is the image of a table at all, it is that of another.
        assert!(load(&image).ok().as_ref() != session.table(), "{what}");
    }
}

/// The two images that T-06 names: 9 desks in edition 1's shape and 8 in
/// edition 2's. The fresh ones hold nothing that could break another rule.
#[test]
fn an_edition_that_does_not_fit_is_13() {
    use common::slow::{replay, ONE, TWO};
    for (text, right, other) in [("N 9 1\n", TWO, ONE), ("N 8 1\n", ONE, TWO)] {
        let slow = replay(text.as_bytes()).1.unwrap();
        let (good, bad) = (slow.image_in(right), slow.image_in(other));
        assert!(load(&good).is_ok());
        let count = good.len() / BLOCK;
        assert_eq!(load(&bad), Err(Fault::Rule(count)));
        assert_eq!(broken(&bad), [Rule::Edition]);
        // Only the edition bytes differ, and the checks over them.
        assert_eq!(good.len(), bad.len());
        let differ = (0..good.len()).filter(|&at| good[at] != bad[at]);
        assert!(differ.map(|at| at % BLOCK).all(|at| at == 1 || at >= 508));
        // Mixed: any one block in the other edition.
        for block in 0..count {
            let mut mixed = good.clone();
            let place = block * BLOCK..(block + 1) * BLOCK;
            mixed[place.clone()].copy_from_slice(&bad[place]);
            assert_eq!(load(&mixed), Err(Fault::Rule(count)), "{block}");
        }
    }
}

/// Hundreds of tables that schedules gave: the image is that of the slow
/// machine, loads to the same table, and saves to the same bytes.
#[test]
fn round_trip_and_the_slow_image() {
    let mut seen = BTreeSet::new();
    for seed in 0..400 {
        let kind = [Kind::Traffic, Kind::Full, Kind::Single, Kind::Mixed][seed as usize % 4];
        let text = schedule(seed, kind, 1 + (seed as usize * 7) % 180);
        let mut session = Session::new();
        for line in Reader::new(&text) {
            session.answer(line, &mut Vec::new());
        }
        let slow = common::slow::replay(&text).1;
        assert_eq!(session.table().is_some(), slow.is_some());
        let (Some(t), Some(slow)) = (session.table(), slow) else {
            continue;
        };
        let image = to_vec(t).unwrap();
        assert!(image == slow.image(), "seed {seed}");
        assert_eq!(broken(&image), []);
        let back = load(&image).unwrap();
        assert_eq!(&back, t);
        assert!(keeps_rules(&back));
        assert_eq!(to_vec(&back).unwrap(), image);
        let edition = Edition::of(t.desks().into());
        let blocks = t.open_count().div_ceil(edition.open_per_block);
        seen.insert((edition.number, blocks));
    }
    // From none to 4 in edition 1, and from none to 8 in edition 2.
    assert_eq!(seen.len(), 5 + 9, "open blocks seen: {seen:?}");
}

/// Cut a schedule anywhere, save, load and go on: the same answers and the
/// same image at the end.
#[test]
fn going_on_after_a_reload() {
    let mut rng = Rng::new(5);
    let mut runs = 0;
    for seed in 0..300 {
        let kind = [Kind::Traffic, Kind::Full, Kind::Single][seed as usize % 3];
        let text = schedule(1_000 + seed, kind, 200);
        let lines: Vec<&[u8]> = text.split_inclusive(|&b| b == b'\n').collect();
        let cut = rng.range(1, lines.len());
        let mut whole = Session::new();
        for line in Reader::new(&lines[..cut].concat()) {
            whole.answer(line, &mut Vec::new());
        }
        let Some(t) = whole.table() else {
            continue;
        };
        let loaded = load(&to_vec(t).unwrap()).unwrap();
        let rest = lines[cut..].concat();
        let mut parted = Session::with_table(loaded);
        let (mut a, mut b) = (Vec::new(), Vec::new());
        for line in Reader::new(&rest) {
            whole.answer(line, &mut a);
            parted.answer(line, &mut b);
        }
        assert!(a == b, "seed {seed}, cut at {cut}");
        assert_eq!(whole.table(), parted.table());
        assert_eq!(
            to_vec(whole.table().unwrap()),
            to_vec(parted.table().unwrap())
        );
        runs += 1;
    }
    assert!(runs >= 290);
}

/// Tables near 65,535 that no schedule gives: they load, go on, and each step
/// leaves a table that keeps the rules.
#[test]
fn worn_tables() {
    let mut spent = 0;
    let mut rng = Rng::new(77);
    for seed in 0..150 {
        let image = worn_image(seed);
        assert_eq!(broken(&image), [], "seed {seed}");
        let mut t = load(&image).unwrap();
        assert_eq!(to_vec(&t).unwrap(), image);
        let (n, m) = (u16::from(t.desks()), u16::from(t.cells()));
        for _ in 0..60 {
            let desk = rng.range(1, n.into()) as u16;
            let cell = rng.range(1, m.into()) as u16;
            match rng.below(4) {
                0 => {
                    let before = t.applied(desk).unwrap()[desk as usize - 1];
                    match t.write(desk, cell, 1) {
                        Ok(name) => assert_eq!(name.number, before + 1),
                        Err(Refusal::WritesSpent) => {
                            assert_eq!(before, 65_535);
                            spent += 1;
                        }
                        Err(refusal) => assert_eq!(refusal, Refusal::OpenFull),
                    }
                }
                1 => {
                    t.read(desk, cell).unwrap();
                }
                _ => {
                    let due: Vec<_> = (t.open_writes())
                        .filter(|w| w.marks[desk as usize - 1] == Mark::Missing)
                        .map(|w| w.name)
                        .collect();
                    if !due.is_empty() {
                        let name = *rng.pick(&due);
                        t.deliver(desk, name.desk.into(), name.number).unwrap();
                    }
                }
            }
            assert!(keeps_rules(&t));
        }
        let image = to_vec(&t).unwrap();
        assert_eq!(broken(&image), []);
        assert_eq!(load(&image), Ok(t));
    }
    assert!(spent > 50, "{spent}");
}

/// Only the written rules count: tables that no schedule gives load, and go on
/// as the slow machine does from the same bytes.
#[test]
fn odd_and_worn_tables_go_on_as_the_slow_machine() {
    for seed in 0..200 {
        let image = if seed % 3 == 0 {
            worn_image(seed)
        } else {
            odd_image(seed)
        };
        assert_eq!(broken(&image), [], "seed {seed}");
        let t = load(&image).unwrap();
        assert_eq!(to_vec(&t).unwrap(), image);
        let text = schedule_from(&t, seed, 120);
        let mut slow = common::slow::Slow::load(&image);
        assert!(slow.image() == image, "seed {seed}");
        let mut session = Session::with_table(t);
        for (at, line) in Reader::new(&text).enumerate() {
            let mut fast = Vec::new();
            session.answer(line, &mut fast);
            let slow = slow.answer(line.bytes);
            assert_eq!(String::from_utf8(fast).unwrap(), slow, "seed {seed}, {at}");
        }
        let after = to_vec(session.table().unwrap()).unwrap();
        assert!(after == slow.image(), "seed {seed}");
        assert_eq!(broken(&after), []);
    }
}

#[test]
fn save_refuses_and_leaves_the_buffer() {
    for seed in 0..60 {
        let t = table(seed);
        let length = image_len(&t);
        let mut short = vec![7; length - 1];
        assert_eq!(save(&t, &mut short), Err(Refusal::Length));
        assert!(short.iter().all(|&b| b == 7));
        let mut long = vec![7; length + 9];
        assert_eq!(save(&t, &mut long), Ok(length));
        assert_eq!(long[..length], to_vec(&t).unwrap());
        assert_eq!(long[length..], [7; 9]);
    }
}

#[test]
fn wrong_lengths_are_15() {
    let good = to_vec(&table(3)).unwrap();
    assert_eq!(load(&[]), Err(Fault::WrongLength));
    for length in (1..good.len()).filter(|l| l % BLOCK != 0) {
        assert_eq!(load(&good[..length]), Err(Fault::WrongLength));
    }
    // Whole blocks cut off: each that is left can stand, and there are too few.
    for blocks in 1..good.len() / BLOCK {
        let answer = load(&good[..blocks * BLOCK]);
        assert_eq!(answer, Err(Fault::Rule(blocks)));
    }
}

#[test]
fn every_damaged_bit_is_noticed() {
    let good = to_vec(&table(8)).unwrap();
    for at in 0..good.len() {
        let mut image = good.clone();
        image[at] ^= 1 << (at % 8);
        assert_eq!(load(&image), Err(Fault::Check(at / BLOCK)), "byte {at}");
    }
}

/// A fault as the slow version tells it: number and place.
fn told_as(fault: Fault) -> (u8, Option<usize>) {
    (fault.refusal().number(), fault.place())
}

/// Each written rule, broken in images of random tables, is refused by its
/// number and place; and for each rule there are samples that break that rule alone.
#[test]
fn each_rule_broken_alone() {
    let alone = [
        (Damage::HeadByte, Rule::UnnamedByte),
        (Damage::DeskNumber, Rule::DeskNumber),
        (Damage::DesksSwapped, Rule::DeskNumber),
        (Damage::DeskByte, Rule::UnnamedByte),
        (Damage::CountPastN, Rule::DeskPastN),
        (Damage::ClockPastN, Rule::DeskPastN),
        (Damage::CountAboveOwn, Rule::CountAboveOwn),
        (Damage::ClockAboveCount, Rule::ClockAboveCount),
        (Damage::ClockOwnPlace, Rule::ClockOwnPlace),
        (Damage::CellWriter, Rule::CellWriter),
        (Damage::CellStatus, Rule::CellStatus),
        (Damage::CellByte, Rule::UnnamedByte),
        (Damage::CellPlacePastN, Rule::VectorPastN),
        (Damage::CellPastM, Rule::UnnamedByte),
        (Damage::UnsetNotZero, Rule::UnsetNotZero),
        (Damage::CellAboveCount, Rule::CellAboveCount),
        (Damage::CellWriterPlaceZero, Rule::CellWriterPlace),
        (Damage::OpenWriter, Rule::OpenWriter),
        (Damage::OpenStatus, Rule::OpenStatus),
        (Damage::OpenCell, Rule::OpenCell),
        (Damage::OpenByte, Rule::UnnamedByte),
        (Damage::OpenPlacePastN, Rule::VectorPastN),
        (Damage::OpenAboveCount, Rule::AppliedAboveCount),
        (Damage::OpenTwice, Rule::OpenSet),
        (Damage::OpenMissing, Rule::OpenSet),
        (Damage::OpenClosed, Rule::OpenSet),
        (Damage::OpenOrder, Rule::OpenOrder),
        (Damage::OpenPastCount, Rule::UnnamedByte),
        (Damage::MarkRange, Rule::MarkRange),
        (Damage::MarkPastN, Rule::MarkPastN),
        (Damage::MarkAppliedTooSoon, Rule::MarkTwo),
        (Damage::MarkNotApplied, Rule::MarkTwo),
        (Damage::MarkHeldReady, Rule::HeldReady),
        (Damage::KindWrong, Rule::Blocks),
        (Damage::EditionWrong, Rule::Edition),
        (Damage::EditionMixed, Rule::Edition),
        (Damage::EditionUnfit, Rule::Edition),
        (Damage::PlaceWrong, Rule::Blocks),
        (Damage::BlockCut, Rule::Blocks),
        (Damage::BlockDropped, Rule::Blocks),
        (Damage::BlockAdded, Rule::Blocks),
        (Damage::ZeroBlockAdded, Rule::Blocks),
        (Damage::KindsSwapped, Rule::Blocks),
        (Damage::PlacesSwapped, Rule::Blocks),
        (Damage::TailCut, Rule::Blocks),
        (Damage::BlockDoubled, Rule::Blocks),
        (Damage::ForeignElsewhere, Rule::Blocks),
        (Damage::OpenCountWrong, Rule::Blocks),
        (Damage::DesksRange, Rule::HeadRange),
        (Damage::CellsRange, Rule::HeadRange),
    ];
    let goods: Vec<Vec<u8>> = (0..120).map(|seed| to_vec(&table(seed)).unwrap()).collect();
    let mut rng = Rng::new(13);
    let mut counts = BTreeMap::new();
    let mut editions = BTreeSet::new();
    for what in Damage::ALL {
        for good in &goods {
            let Some(sample) = damage(good, what, &mut rng) else {
                continue;
            };
            let image = sample.image;
            let rules = broken(&image);
            let answer = load(&image).map(|t| to_vec(&t).unwrap());
            let told = format!("{what:?} {rules:?}");
            let refusal = answer.as_ref().err().map(|fault| fault.refusal());
            match &rules[..] {
                [] => assert_eq!(answer.as_ref(), Ok(&image), "{told}"),
                [Rule::Length] => assert_eq!(refusal, Some(Refusal::ImageLength), "{told}"),
                [Rule::Check] => assert_eq!(refusal, Some(Refusal::ImageDamaged), "{told}"),
                _ => assert_eq!(refusal, Some(Refusal::RuleBroken), "{told}"),
            }
            let answer = answer.map(drop);
            assert_eq!(answer.err().map(told_as), finding(&image), "{told}");
            if let Some(foretold) = sample.foretold {
                assert_eq!(answer, foretold, "{told}");
            }
            editions.insert((format!("{what:?}"), good[1]));
            let (all, single) = counts.entry(format!("{what:?}")).or_insert((0, 0));
            *all += 1;
            *single += usize::from(rules.len() == 1 && alone.contains(&(what, rules[0])));
        }
    }
    for (what, rule) in alone {
        let (all, single) = counts[&format!("{what:?}")];
        assert!(
            all >= 10 && single >= 5,
            "{what:?}, {rule:?}: {single} of {all}"
        );
    }
    // Each in images of both editions.
    for what in Damage::ALL {
        for edition in [1, 2] {
            let met = editions.contains(&(format!("{what:?}"), edition));
            assert!(met, "{what:?}, edition {edition}");
        }
    }
}

/// Thousands of samples from seeds: load agrees with the rules one by one, and
/// what it accepts is the image of what it gave.
#[test]
fn load_agrees_with_the_rules_one_by_one() {
    let mut refusals = BTreeMap::new();
    for seed in 0..1_500 {
        let sample = damaged_image(seed);
        let rules = broken(&sample.image);
        let answer = load(&sample.image);
        let refusal = answer.as_ref().err().map(|fault| fault.refusal());
        let expect = match &rules[..] {
            [] => None,
            [Rule::Length] => Some(Refusal::ImageLength),
            [Rule::Check] => Some(Refusal::ImageDamaged),
            _ => Some(Refusal::RuleBroken),
        };
        assert_eq!(refusal, expect, "{seed} {rules:?}");
        let fault = answer.as_ref().err().copied();
        assert_eq!(fault.map(told_as), finding(&sample.image), "{seed}");
        if let Some(foretold) = sample.foretold {
            assert_eq!(fault, foretold.err(), "{seed} {:?}", sample.damage);
        }
        if let Ok(t) = answer {
            assert_eq!(to_vec(&t).unwrap(), sample.image);
        }
        // By number and, for 13, by whether a block is named.
        let blocks = sample.image.len() / BLOCK;
        let named = fault.is_some_and(|fault| matches!(fault, Fault::Rule(at) if at < blocks));
        *refusals.entry((expect, named)).or_insert(0) += 1;
    }
    assert!(
        refusals.len() == 5 && refusals.values().all(|&c| c >= 25),
        "{refusals:?}"
    );
}

/// Small changes to images, many of them allowed: the same agreement.
#[test]
fn scribbles() {
    let mut rng = Rng::new(99);
    let (mut kept, mut refused) = (0, 0);
    for seed in 0..60 {
        let good = to_vec(&table(500 + seed)).unwrap();
        for _ in 0..60 {
            let what = *rng.pick(&[Damage::Scribble, Damage::Scribble, Damage::SameKindSwapped]);
            let Some(sample) = damage(&good, what, &mut rng) else {
                continue;
            };
            let image = sample.image;
            match load(&image) {
                Ok(t) => {
                    assert_eq!(broken(&image), []);
                    assert!(keeps_rules(&t));
                    assert_eq!(to_vec(&t).unwrap(), image);
                    kept += usize::from(image != good);
                }
                Err(fault) => {
                    assert_eq!(fault.refusal(), Refusal::RuleBroken);
                    assert_eq!(Some(told_as(fault)), finding(&image));
                    assert_ne!(broken(&image), []);
                    refused += 1;
                }
            }
        }
    }
    assert!(kept > 40 && refused > 1_000, "{kept} {refused}");
}

/// A loaded table goes on from text, and a fresh one does as `replay` does.
#[test]
fn a_loaded_fresh_table() {
    let fresh = load(&to_vec(&Table::new(3, 2).unwrap()).unwrap()).unwrap();
    let (input, output) = common::session();
    let rest = &input[6..];
    assert_eq!(replay_in(Session::with_table(fresh), rest), output[2..]);
    assert_eq!(replay(&input), output);
}
