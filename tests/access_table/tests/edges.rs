//! Lengths at their edges: buffers, schedules, answers, images.

use access_table::{
    answers_bound, inspect, raw, run, run_into, Finding, Lengths, Refusal, Run, Table, BLOCK,
    MAX_IMAGE, MAX_SCHEDULE,
};
use evidence::gen::{in_edition, odd_image, schedule_from, worn_image};
use evidence::image::{check_of, load, to_vec, Edition};
use evidence::text::{replay_in, Session};

/// So many desks, 64 cells, 64 open writes.
fn largest(desks: usize) -> Table {
    let mut table = Table::new();
    let writes: String = (1..=64)
        .map(|x| format!("W {} {x} {}\n", x % desks + 1, x % 3))
        .collect();
    let text = format!("N {desks} 64\n{writes}");
    let answers = table.run(text.as_bytes()).unwrap();
    assert!(!answers.contains(&b'E'));
    assert_eq!(table.run(b"W 1 1 1\n").unwrap(), b"E 5\n");
    table
}

#[test]
fn the_largest_image() {
    for (desks, edition, blocks) in [(8, 1, 37), (16, 2, 105)] {
        let table = largest(desks);
        let image = table.image().unwrap();
        assert_eq!(image.len(), blocks * BLOCK);
        assert!(image.chunks(BLOCK).all(|block| block[1] == edition));
        assert_eq!(Table::load(image).unwrap(), table);
    }
    assert_eq!(MAX_IMAGE, 53_760);
}

/// 16 desks are taken and 17 are not; a write waits for desk 16.
#[test]
fn sixteen_desks() {
    let mut table = Table::new();
    let text = b"N 17 1\nN 16 2\nW 16 1 1\nD 2 16 1\nR 2 1\nW 2 2 2\nD 15 2 1\n";
    let answers = table.run(text).unwrap();
    assert_eq!(
        answers,
        b"E 11\nN\nW 16.1\nA 16.1\nR 1 16.1\nW 2.1\nH 16.1\n"
    );
    // Behind a reload too.
    let mut table = Table::load(table.image().unwrap()).unwrap();
    let answers = table.run(b"D 15 16 1\nT 15 1 2\nR 17 1\n").unwrap();
    assert_eq!(answers, b"A 16.1 2.1\nT no\nE 1\n");
}

/// 9 desks in edition 1 and 8 in edition 2: 13, and so is any mixture. A block
/// is named only where its edition is neither.
#[test]
fn an_edition_that_does_not_fit() {
    for (desks, right, wrong) in [
        (9, Edition::TWO, Edition::ONE),
        (8, Edition::ONE, Edition::TWO),
    ] {
        let good = run(None, format!("N {desks} 2\n").as_bytes()).unwrap();
        for image in [good.image.unwrap(), largest(desks).into_image().unwrap()] {
            assert!(run(Some(&image), b"").is_ok());
            let whole = in_edition(&image, right, wrong).unwrap();
            assert_eq!(run(Some(&whole), b""), Err(Refusal::Broken));
            assert_eq!(inspect(&whole), Finding::Broken);
            let mut all = image.clone();
            for block in 0..image.len() / BLOCK {
                let mut one = image.clone();
                for edition in [0, 3, 255, wrong.number] {
                    set_edition(&mut one, block, edition);
                    assert_eq!(run(Some(&one), b""), Err(Refusal::Broken), "{block}");
                    let finding = match edition {
                        1 | 2 => Finding::Broken,
                        _ => Finding::Misplaced { block },
                    };
                    assert_eq!(inspect(&one), finding, "{block}");
                }
                // The blocks up to this one, and at the end all.
                set_edition(&mut all, block, wrong.number);
                assert_eq!(run(Some(&all), b""), Err(Refusal::Broken), "{block}");
                assert_eq!(inspect(&all), Finding::Broken, "{block}");
            }
        }
    }
}

/// Gives a block an edition, and its check.
fn set_edition(image: &mut [u8], block: usize, edition: u8) {
    let block = &mut image[block * BLOCK..][..BLOCK];
    block[1] = edition;
    let check = check_of(block);
    block[508..].copy_from_slice(&check.to_le_bytes());
}

/// The longest answer line: 64 names of 9 bytes, all of them held in the image.
#[test]
fn the_longest_answer_line() {
    let mut worn = load(&run(None, b"N 16 1\n").unwrap().image.unwrap()).unwrap();
    for number in 1..=65_535 {
        worn.write(16, 1, 0).unwrap();
        if number <= 65_535 - 64 {
            for desk in 1..=15 {
                worn.deliver(desk, 16, number).unwrap();
            }
        }
    }
    let mut table = Table::load(&to_vec(&worn).unwrap()).unwrap();
    let first = 65_535 - 63;
    let held: String = (first + 1..=65_535)
        .map(|k| format!("D 1 16 {k}\n"))
        .collect();
    let answers = table.run(held.as_bytes()).unwrap();
    assert_eq!(answers, b"H 16.65472\n".repeat(63));
    let names: String = (first..=65_535).map(|k| format!(" 16.{k}")).collect();
    let answers = table.run(format!("D 1 16 {first}\n").as_bytes()).unwrap();
    assert_eq!(answers, format!("A{names}\n").as_bytes());
    assert_eq!(answers.len(), 578);
}

#[test]
fn the_smallest_image() {
    let image = run(None, b"N 1 1\n").unwrap().image.unwrap();
    assert_eq!(image.len(), 3 * BLOCK);
    assert_eq!(image[508..512], [15, 0, 0, 0]);
}

/// More blocks than any image has: all checks are tested before the rules.
#[test]
fn far_too_many_blocks() {
    for desks in [8, 16] {
        let mut image = largest(desks).into_image().unwrap();
        let (first, edition) = (image.len() / BLOCK, image[1]);
        for place in first..250 {
            let mut block = [0; BLOCK];
            block[..4].copy_from_slice(&[4, edition, place as u8, 0]);
            let check = check_of(&block);
            block[508..].copy_from_slice(&check.to_le_bytes());
            image.extend(block);
        }
        assert_eq!(run(Some(&image), b""), Err(Refusal::Broken));
        assert_eq!(inspect(&image), Finding::Broken);
        *image.last_mut().unwrap() ^= 1;
        assert_eq!(run(Some(&image), b""), Err(Refusal::Damaged));
        assert_eq!(inspect(&image), Finding::Damaged { block: 249 });
    }
}

/// 65,536 bytes are run and 65,537 are not; and the bound on answers is met.
#[test]
fn the_longest_schedule() {
    let image = largest(16).into_image().unwrap();
    let lines = vec![b'\n'; MAX_SCHEDULE + 1];
    for image in [None, Some(&image[..])] {
        let all = run(image, &lines[1..]).unwrap();
        assert_eq!(all.answers, b"E 10\n".repeat(MAX_SCHEDULE));
        assert_eq!(all.image.as_deref(), image);
        assert_eq!(run(image, &lines), Err(Refusal::Short));
    }
    assert_eq!(answers_bound(MAX_SCHEDULE), 5 * MAX_SCHEDULE + 8_640);
}

/// All that came held with the image is listed at once, and fits the bound.
#[test]
fn held_writes_of_an_image_are_listed() {
    let mut table = Table::new();
    let mut text = String::from("N 2 1\n");
    text.extend((0..64).map(|_| "W 1 1 1\n"));
    text.extend((2..=64).map(|k| format!("D 2 1 {k}\n")));
    table.run(text.as_bytes()).unwrap();
    let answers = table.run(b"D 2 1 1\n").unwrap();
    let names: String = (1..=64).map(|k| format!(" 1.{k}")).collect();
    assert_eq!(answers, format!("A{names}\n").as_bytes());
    assert!(answers.len() > 5 * 8 && answers.len() <= answers_bound(8));
}

/// What is missing goes by the counts of the image: 1.2, though 1.3 is held.
#[test]
fn a_hold_behind_a_reload() {
    let mut table = Table::new();
    let text = format!("N 2 1\n{}D 2 1 1\nD 2 1 3\n", "W 1 1 1\n".repeat(4));
    assert!(table.run(text.as_bytes()).unwrap().ends_with(b"H 1.2\n"));
    let answers = table.run(b"D 2 1 4\nD 2 1 2\n").unwrap();
    assert_eq!(answers, b"H 1.2\nA 1.2 1.3 1.4\n");
}

/// Tables that no schedule gives go on as the independent implementation does,
/// and within the bound.
#[test]
fn worn_and_odd_tables_within_the_bound() {
    for seed in 0..60 {
        for image in [worn_image(seed), odd_image(seed)] {
            let table = load(&image).unwrap();
            let text = schedule_from(&table, seed, 150);
            let expected = replay_in(Session::with_table(table), &text);
            let found = run(Some(&image), &text).unwrap();
            assert!(found.answers == expected, "seed {seed}");
            assert!(found.answers.len() <= answers_bound(text.len()));
        }
    }
}

/// Just enough room, and more: what lies behind stays.
#[test]
fn room_to_the_byte_and_more() {
    let schedule = b"N 3 26\nW 2 26 1\nR 2 26\nx";
    let Run { answers, image } = run(None, schedule).unwrap();
    let image = image.unwrap();
    assert_eq!(answers, b"N\nW 2.1\nR 1 2.1\nE 10\n");
    let told = Lengths {
        answers: answers.len(),
        image: image.len(),
    };
    for more in [0, 1, 700] {
        let mut out = vec![9; answers.len() + more];
        let mut after = vec![8; image.len() + more];
        assert_eq!(run_into(None, schedule, &mut out, &mut after), Ok(told));
        assert_eq!(out[..answers.len()], answers);
        assert_eq!(after[..image.len()], image);
        assert!(out[answers.len()..].iter().all(|&b| b == 9));
        assert!(after[image.len()..].iter().all(|&b| b == 8));
    }
    let mut lengths = [7; 5];
    let (mut out, mut after) = (vec![9; 64], vec![8; MAX_IMAGE]);
    let number = raw::access_run(b"", schedule, &mut out, &mut after, &mut lengths);
    let told = [answers.len() as u64, image.len() as u64, 7, 7, 7];
    assert_eq!((number, lengths), (0, told));
}

/// No table: nothing is written for the image, not even into no room.
#[test]
fn no_table_no_image() {
    let mut answers = [3; 12];
    let told = Lengths {
        answers: 10,
        image: 0,
    };
    let found = run_into(None, b"N 17 1\nR 1 1\n", &mut answers, &mut []);
    assert_eq!(found, Ok(told));
    assert_eq!(&answers, b"E 11\nE 10\n\x03\x03");
    let mut lengths = [7; 2];
    assert_eq!(raw::access_run(&[], &[], &mut [], &mut [], &mut lengths), 0);
    assert_eq!(lengths, [0, 0]);
}

/// Nothing is kept between calls, so many may run at a time.
#[test]
fn several_threads() {
    let expected = run(None, b"N 2 2\nW 1 2 1\nD 2 1 1\n").unwrap();
    std::thread::scope(|scope| {
        for _ in 0..4 {
            scope.spawn(|| {
                for _ in 0..50 {
                    let found = run(None, b"N 2 2\nW 1 2 1\nD 2 1 1\n").unwrap();
                    assert_eq!(found, expected);
                }
            });
        }
    });
}
