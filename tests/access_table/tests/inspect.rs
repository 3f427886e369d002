//! What is wrong with an image, and where: the five numbers, the enum, its words.

use access_table::{inspect, raw, run, Finding, Refusal, Table, BLOCK};
use evidence::gen::{damage, odd_image, table, worn_image, Damage, Rng};
use evidence::image::{check_of, load, to_vec, Fault};

/// 2 desks, 3 cells, 2 open writes: 6 blocks.
fn saved() -> Vec<u8> {
    let run = run(None, b"N 2 3\nW 1 1 2\nW 2 3 1\n").unwrap();
    run.image.unwrap()
}

/// Sets a byte of a block, and puts its check right.
fn sealed(image: &[u8], block: usize, byte: usize, value: u8) -> Vec<u8> {
    let mut image = image.to_vec();
    image[block * BLOCK + byte] = value;
    let block = &mut image[block * BLOCK..][..BLOCK];
    let check = check_of(block);
    block[508..].copy_from_slice(&check.to_le_bytes());
    image
}

fn five(image: &[u8]) -> [u64; 5] {
    let mut five = [99; 5];
    assert_eq!(raw::access_inspect(image, &mut five), 0);
    five
}

/// What the independent implementation says of an image.
fn expected(image: &[u8]) -> Finding {
    let blocks = image.len() / BLOCK;
    match load(image) {
        Ok(table) => Finding::Table {
            desks: table.desks().into(),
            cells: table.cells().into(),
            open: table.open_count(),
        },
        Err(Fault::WrongLength) => Finding::Cut { bytes: image.len() },
        Err(Fault::Check(block)) => Finding::Damaged { block },
        Err(Fault::Rule(block)) if block < blocks => Finding::Misplaced { block },
        Err(Fault::Rule(_)) => Finding::Broken,
    }
}

#[test]
fn the_five_numbers() {
    let good = saved();
    assert_eq!(good.len(), 6 * BLOCK);
    assert_eq!(five(&good), [0, 0, 2, 3, 2]);
    assert_eq!(five(&[]), [15, 0, 0, 0, 0]);
    assert_eq!(five(&good[..700]), [15, 0, 0, 0, 0]);
    assert_eq!(five(&[0; 512]), [12, 0, 0, 0, 0]);
    // A tail cut at a block's end: all that is left can stand.
    assert_eq!(five(&good[..3 * BLOCK]), [13, 3, 0, 0, 0]);
    for block in 0..6 {
        let mut image = good.clone();
        image[block * BLOCK + 100] ^= 4;
        assert_eq!(five(&image), [12, block as u64, 0, 0, 0]);
        let stray = sealed(&good, block, 0, 5);
        assert_eq!(five(&stray), [13, block as u64, 0, 0, 0]);
        let other = sealed(&good, block, 1, 2);
        assert_eq!(five(&other), [13, 6, 0, 0, 0]);
        // A wrong check behind it comes first.
        if block < 5 {
            let mut both = stray;
            both[6 * BLOCK - 1] ^= 1;
            assert_eq!(five(&both), [12, 5, 0, 0, 0]);
        }
    }
    assert_eq!(five(&sealed(&good, 0, 5, 65)), [13, 6, 0, 0, 0]);
}

/// Fewer than five: 14, and as found. More: what lies behind stays.
#[test]
fn lent_numbers() {
    let good = saved();
    for image in [&good[..], &good[..700], &[], &[0; 512]] {
        let numbers = five(image);
        for short in 0..5 {
            let mut finding = vec![7; short];
            assert_eq!(raw::access_inspect(image, &mut finding), 14);
            assert!(finding.iter().all(|&number| number == 7));
        }
        for more in [1, 2, 300] {
            let mut finding = vec![7; 5 + more];
            assert_eq!(raw::access_inspect(image, &mut finding), 0);
            assert_eq!(finding[..5], numbers);
            assert!(finding[5..].iter().all(|&number| number == 7));
        }
    }
}

/// An image that a run takes is a table, and the other way round; a refused one has the run's number. No bytes are no
/// table yet to a bare run, and cut to the wrapper's and to `inspect`.
#[test]
fn as_a_run_has_it() {
    let mut rng = Rng::new(21);
    let mut met = [0; 5];
    for seed in 0..40 {
        for good in [
            to_vec(&table(seed)).unwrap(),
            worn_image(seed),
            odd_image(seed),
        ] {
            let what = *rng.pick(&Damage::ALL);
            let damaged = damage(&good, what, &mut rng).map(|sample| sample.image);
            for image in [Some(good), damaged].into_iter().flatten() {
                let finding = inspect(&image);
                assert_eq!(finding, expected(&image), "{seed} {what:?}");
                let refusal = run(Some(&image), b"").err();
                assert_eq!(finding.refusal(), refusal, "{seed} {what:?}");
                assert_eq!(finding.number(), refusal.map_or(0, Refusal::number));
                assert_eq!(Table::load(&image).err(), refusal);
                met[match finding {
                    Finding::Table { .. } => 0,
                    Finding::Cut { .. } => 1,
                    Finding::Damaged { .. } => 2,
                    Finding::Misplaced { .. } => 3,
                    Finding::Broken => 4,
                }] += 1;
            }
        }
    }
    assert!(met.iter().all(|&count| count > 3), "{met:?}");
    assert_eq!(inspect(b"").refusal(), Some(Refusal::Cut));
    assert_eq!(run(Some(b""), b"").err(), Some(Refusal::Cut));
}

/// Past block 65,535 no place is right, though each says its number modulo 65,536.
#[test]
fn more_blocks_than_places() {
    let blocks = 65_538;
    let mut image = vec![0; blocks * BLOCK];
    for (at, block) in image.chunks_exact_mut(BLOCK).enumerate() {
        block[..2].copy_from_slice(if at == 0 { &[1, 1] } else { &[3, 1] });
        block[2..4].copy_from_slice(&(at as u16).to_le_bytes());
        block[4..6].fill(u8::from(at == 0));
        let check = check_of(block);
        block[508..].copy_from_slice(&check.to_le_bytes());
    }
    assert_eq!(five(&image), [13, 65_536, 0, 0, 0]);
    assert_eq!(inspect(&image), Finding::Misplaced { block: 65_536 });
    assert_eq!(inspect(&image[..65_536 * BLOCK]), Finding::Broken);
    assert_eq!(run(Some(&image), b"").err(), Some(Refusal::Broken));
    image[65_537 * BLOCK + 508] ^= 1;
    assert_eq!(inspect(&image), Finding::Damaged { block: 65_537 });
}

#[test]
fn in_words() {
    let table = |desks, cells, open| Finding::Table { desks, cells, open };
    for (finding, words) in [
        (
            table(3, 5, 2),
            "a table of 3 desks and 5 cells, 2 writes open",
        ),
        (
            table(1, 1, 0),
            "a table of 1 desk and 1 cell, no write open",
        ),
        (
            table(2, 1, 1),
            "a table of 2 desks and 1 cell, 1 write open",
        ),
        (
            table(16, 64, 64),
            "a table of 16 desks and 64 cells, 64 writes open",
        ),
        (
            Finding::Cut { bytes: 700 },
            "cut short: 700 bytes are no whole number of blocks",
        ),
        (
            Finding::Cut { bytes: 1 },
            "cut short: 1 byte is no whole number of blocks",
        ),
        (Finding::Cut { bytes: 0 }, "empty: there are no bytes"),
        (Finding::Damaged { block: 3 }, "block 3 is damaged"),
        (
            Finding::Misplaced { block: 2 },
            "block 2 cannot stand there",
        ),
        (
            Finding::Broken,
            "every block is whole, but the table breaks a rule",
        ),
    ] {
        assert_eq!(finding.to_string(), words);
    }
    // From bytes to words.
    let good = saved();
    let said = |image: &[u8]| inspect(image).to_string();
    assert_eq!(said(&good), "a table of 2 desks and 3 cells, 2 writes open");
    assert_eq!(
        said(&good[1..]),
        "cut short: 3071 bytes are no whole number of blocks"
    );
    assert_eq!(said(&sealed(&good, 2, 1, 3)), "block 2 cannot stand there");
    assert_eq!(
        said(&sealed(&good, 0, 7, 1)),
        "every block is whole, but the table breaks a rule"
    );
}
