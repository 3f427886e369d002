//! T-01: what is wrong with an image, and where.

mod common;

use common::rules::{broken, finding, Rule};
use evidence::gen::{damage, table, Damage, Rng};
use evidence::image::{check_of, load, to_vec, Edition, Fault, BLOCK, CHECK, PAYLOAD};
use evidence::table::Table;
use evidence::Refusal;
use std::collections::BTreeMap;

/// An image of 3 desks and 26 cells, and one of 9 desks, with open writes: 13 and 20 blocks, editions 1 and 2.
fn goods() -> [Vec<u8>; 2] {
    [(3, 26, 40), (9, 3, 9)].map(|(n, m, writes)| {
        let mut t = Table::new(n, m).unwrap();
        for k in 0..writes {
            t.write(1 + k % n, 1 + k % m, k % 3).unwrap();
        }
        t.deliver(2, 1, 1).unwrap();
        to_vec(&t).unwrap()
    })
}

fn count(image: &[u8]) -> usize {
    image.len() / BLOCK
}

/// Puts the check of a block right.
fn seal(image: &mut [u8], block: usize) {
    let block = &mut image[block * BLOCK..][..BLOCK];
    let check = check_of(block);
    block[CHECK..].copy_from_slice(&check.to_le_bytes());
}

/// The image with a byte of a block changed, and its check put right.
fn sealed(good: &[u8], block: usize, byte: usize, value: u8) -> Vec<u8> {
    let mut image = good.to_vec();
    image[block * BLOCK + byte] = value;
    seal(&mut image, block);
    image
}

/// The same with the check left wrong.
fn spoiled(good: &[u8], block: usize) -> Vec<u8> {
    let mut image = good.to_vec();
    image[block * BLOCK + CHECK] ^= 1;
    image
}

/// Load and its slow version say this.
fn says(image: &[u8], fault: Fault, told: &str) {
    assert_eq!(load(image).map(drop), Err(fault), "{told}");
    let slow = finding(image);
    assert_eq!(
        slow,
        Some((fault.refusal().number(), fault.place())),
        "{told}"
    );
}

fn accepted(image: &[u8]) {
    assert_eq!(load(image).map(|t| to_vec(&t).unwrap()), Ok(image.to_vec()));
    assert_eq!(finding(image), None);
}

#[test]
fn numbers_and_places() {
    assert_eq!(
        goods().map(|good| (count(&good), good[1])),
        [(13, 1), (20, 2)]
    );
    for (fault, number, place) in [
        (Fault::WrongLength, 15, None),
        (Fault::Check(0), 12, Some(0)),
        (Fault::Check(7), 12, Some(7)),
        (Fault::Rule(0), 13, Some(0)),
        (Fault::Rule(70_000), 13, Some(70_000)),
    ] {
        assert_eq!(fault.refusal().number(), number);
        assert_eq!(Refusal::from(fault), fault.refusal());
        assert_eq!(fault.place(), place);
        assert!(fault.to_string().starts_with(&format!("{number}: ")));
        if let Some(place) = place {
            assert!(fault.to_string().ends_with(&format!("(place {place})")));
        }
    }
}

/// 15 for every length that is no whole number of blocks and for none, whatever the bytes; and for no other.
#[test]
fn fifteen_exactly_for_a_wrong_length() {
    for good in goods() {
        accepted(&good);
        let mut longer = good.clone();
        longer.extend(&good[..700]);
        for bytes in [longer, vec![0; 3 * BLOCK], vec![255; 3 * BLOCK]] {
            for length in 0..=bytes.len() {
                let wrong = length == 0 || length % BLOCK != 0;
                let found = load(&bytes[..length]) == Err(Fault::WrongLength);
                assert_eq!(found, wrong, "{length}");
            }
        }
        says(&[], Fault::WrongLength, "no bytes");
        says(&[1], Fault::WrongLength, "one byte");
    }
}

/// 12 with the first of the blocks whose checks are wrong, for every pair of them; the last is not named.
#[test]
fn twelve_names_the_first_wrong_check() {
    for good in goods() {
        for a in 0..count(&good) {
            let one = spoiled(&good, a);
            says(&one, Fault::Check(a), "one");
            for b in a + 1..count(&good) {
                says(&spoiled(&one, b), Fault::Check(a), "two");
            }
        }
        // All of them.
        let all = (0..count(&good)).fold(good.clone(), |image, b| spoiled(&image, b));
        says(&all, Fault::Check(0), "all");
    }
}

/// Every check before any 13: a wrong check in any block, a block that cannot stand in any other, in both orders.
#[test]
fn twelve_before_thirteen_wherever_they_stand() {
    for good in goods() {
        for stray in 0..count(&good) {
            for (byte, value) in [(0, 9), (1, 0), (2, 200), (3, 1)] {
                let one = sealed(&good, stray, byte, value);
                says(&one, Fault::Rule(stray), "a stray block");
                for wrong in (0..count(&good)).filter(|&wrong| wrong != stray) {
                    says(
                        &spoiled(&one, wrong),
                        Fault::Check(wrong),
                        "and a wrong check",
                    );
                }
            }
        }
        // Another rule in the first block, a wrong check in the last.
        let rule = sealed(&good, 0, PAYLOAD + 3, 1);
        says(&rule, Fault::Rule(count(&good)), "the head");
        let last = count(&good) - 1;
        says(&spoiled(&rule, last), Fault::Check(last), "and the last");
    }
}

/// 15 before 12 and 13.
#[test]
fn fifteen_before_twelve_and_thirteen() {
    for good in goods() {
        for block in 0..count(&good) {
            let mut check = spoiled(&good, block);
            let mut stray = sealed(&good, block, 0, 9);
            for image in [&mut check, &mut stray] {
                image.push(0);
                says(image, Fault::WrongLength, "a byte more");
                image.truncate(good.len() - 1);
                says(image, Fault::WrongLength, "a byte less");
            }
        }
    }
}

/// Each of place, edition and kind, with every value that a byte has, in every block: named exactly if it cannot stand.
#[test]
fn thirteen_names_a_block_that_cannot_stand() {
    for good in goods() {
        for block in 0..count(&good) {
            for byte in 0..PAYLOAD {
                let before = good[block * BLOCK + byte];
                for value in (0..=255).filter(|&value| value != before) {
                    let image = sealed(&good, block, byte, value);
                    let stands = match byte {
                        0 => block > 0 && [2, 3, 4].contains(&value),
                        1 => [1, 2].contains(&value),
                        _ => false,
                    };
                    let place = if stands { count(&good) } else { block };
                    says(
                        &image,
                        Fault::Rule(place),
                        &format!("{block} {byte} {value}"),
                    );
                }
            }
        }
    }
}

/// The first of two, and whatever other rule a block before it or behind it breaks.
#[test]
fn thirteen_names_the_first_block_that_cannot_stand() {
    for good in goods() {
        let blocks = count(&good);
        for a in 0..blocks {
            for b in (0..blocks).filter(|&b| b != a) {
                for (byte, value) in [(0, 9), (1, 3), (2, 250)] {
                    let one = sealed(&good, a, byte, value);
                    let two = sealed(&one, b, 2 - byte, 77);
                    says(&two, Fault::Rule(a.min(b)), "two strays");
                    // A mixed edition in block b, and a kind that is in the wrong sequence: other rules.
                    let other = sealed(&one, b, 1, 3 - good[1]);
                    says(&other, Fault::Rule(a), "an edition beside it");
                    if b > 0 {
                        let kind = if good[b * BLOCK] == 4 { 2 } else { 4 };
                        let other = sealed(&one, b, 0, kind);
                        says(&other, Fault::Rule(a), "a sequence beside it");
                    }
                }
            }
        }
        // n, m and the open count out of range, at most one block read: the place test goes on to the last.
        for (byte, value) in [(4, 0), (4, 17), (4, 255), (5, 0), (5, 65), (6, 65), (7, 1)] {
            let head = sealed(&good, 0, byte, value);
            says(&head, Fault::Rule(blocks), "the head alone");
            let last = sealed(&head, blocks - 1, 0, 1);
            says(&last, Fault::Rule(blocks - 1), "the head and the last");
        }
    }
}

/// A byte changed in every position class, with and without a new check.
#[test]
fn a_flipped_byte_in_every_position() {
    for good in goods() {
        let mut met = BTreeMap::new();
        for at in 0..good.len() {
            let (block, byte) = (at / BLOCK, at % BLOCK);
            let mut image = good.clone();
            image[at] ^= 0xff;
            says(&image, Fault::Check(block), "not sealed");
            seal(&mut image, block);
            let class = match byte {
                0 => "kind",
                1 => "edition",
                2 | 3 => "place",
                PAYLOAD..CHECK => "payload",
                _ => "check",
            };
            match class {
                "check" => assert!(image == good),
                "payload" => {
                    // Accepted, where it happens to break no rule, or the count.
                    match load(&image) {
                        Ok(_) => accepted(&image),
                        Err(_) => says(&image, Fault::Rule(count(&good)), "payload"),
                    }
                }
                _ => says(&image, Fault::Rule(block), class),
            }
            *met.entry(class).or_insert(0) += 1;
        }
        let blocks = count(&good);
        let each = [
            ("check", 4),
            ("edition", 1),
            ("kind", 1),
            ("payload", 504),
            ("place", 2),
        ];
        assert_eq!(
            met,
            each.map(|(class, bytes)| (class, bytes * blocks)).into()
        );
    }
}

/// Two blocks exchanged, as they are and with their places put right.
#[test]
fn blocks_exchanged() {
    for good in goods() {
        let blocks = count(&good);
        for a in 0..blocks {
            for b in a + 1..blocks {
                let mut image = good.clone();
                let (front, back) = image.split_at_mut(b * BLOCK);
                front[a * BLOCK..][..BLOCK].swap_with_slice(&mut back[..BLOCK]);
                says(&image, Fault::Rule(a), "as they are");
                for block in [a, b] {
                    image[block * BLOCK + 2] = block as u8;
                }
                says(&image, Fault::Check(a), "places right, checks not");
                seal(&mut image, a);
                says(&image, Fault::Check(b), "the second check not");
                seal(&mut image, b);
                if a == 0 {
                    says(&image, Fault::Rule(0), "another kind in front");
                } else if load(&image).is_err() {
                    says(&image, Fault::Rule(blocks), "all can stand");
                } else {
                    // Two blocks of cells that are alike, or that both desks may have.
                    assert_eq!(good[a * BLOCK], 3);
                    assert_eq!(good[b * BLOCK], 3);
                    accepted(&image);
                }
            }
        }
    }
}

/// A block dropped or doubled, and the tail cut at every block's end.
#[test]
fn blocks_dropped_doubled_and_cut() {
    for good in goods() {
        let blocks = count(&good);
        for block in 0..blocks {
            let (from, to) = (block * BLOCK, (block + 1) * BLOCK);
            let dropped = [&good[..from], &good[to..]].concat();
            // The last one leaves nothing behind it that could stand wrongly.
            says(&dropped, Fault::Rule(block), "dropped");
            assert_eq!(count(&dropped), blocks - 1);
            let doubled = [&good[..to], &good[from..]].concat();
            says(&doubled, Fault::Rule(block + 1), "doubled");
            if block > 0 {
                says(&good[..from], Fault::Rule(block), "cut at a block's end");
            }
            says(&good[..from + 1], Fault::WrongLength, "cut inside");
            says(&good[..to - 1], Fault::WrongLength, "cut inside");
        }
        // Two images one behind the other.
        let twice = [&good[..], &good].concat();
        says(&twice, Fault::Rule(blocks), "twice: the second head");
    }
}

/// Another table's block: named in another place than its own; in its own all can stand.
#[test]
fn another_tables_block() {
    let [first, second] = goods();
    for (good, foreign) in [(&first, &second), (&second, &first)] {
        for to in 0..count(good) {
            for from in 0..count(foreign) {
                let mut image = good.clone();
                let block = &foreign[from * BLOCK..][..BLOCK];
                image[to * BLOCK..][..BLOCK].copy_from_slice(block);
                // The editions differ, so it is never accepted.
                let place = if to == from { count(good) } else { to };
                says(&image, Fault::Rule(place), &format!("{from} to {to}"));
                // With its place put right: only a head, or none in front, cannot stand.
                image[to * BLOCK + 2] = to as u8;
                seal(&mut image, to);
                let stands = (to == 0) == (from == 0);
                let place = if stands { count(good) } else { to };
                says(
                    &image,
                    Fault::Rule(place),
                    &format!("{from} to {to}, placed"),
                );
            }
        }
    }
}

/// Editions mixed in every way, and all of them the other: each can stand, so the block count.
#[test]
fn mixed_editions_give_the_block_count() {
    for n in [1, 8, 9, 16] {
        let good = to_vec(&Table::new(n, 1).unwrap()).unwrap();
        let (blocks, other) = (count(&good), 3 - Edition::of(n.into()).number);
        for mask in 1..1u64 << blocks.min(6) {
            let mut image = good.clone();
            for block in (0..blocks).filter(|block| mask >> (block % 6) & 1 == 1) {
                image = sealed(&image, block, 1, other);
            }
            says(&image, Fault::Rule(blocks), &format!("{n} {mask:b}"));
            assert_eq!(broken(&image), [Rule::Edition]);
            // One that is neither among them is named, and no other.
            let stray = sealed(&image, blocks - 1, 1, 3);
            says(&stray, Fault::Rule(blocks - 1), &format!("{n} {mask:b}"));
        }
    }
}

/// Block 65,536 and those behind it have no place that could be right, though each says its number modulo 65,536.
#[test]
fn past_block_65_535_no_place_is_right() {
    let blocks = 65_539;
    let mut image = vec![0; blocks * BLOCK];
    for (at, block) in image.chunks_exact_mut(BLOCK).enumerate() {
        block[0] = if at == 0 { 1 } else { 3 };
        block[1] = 1;
        block[2..4].copy_from_slice(&(at as u16).to_le_bytes());
        // n and m, so that the head is a good one.
        block[4..6].fill(u8::from(at == 0));
        let check = check_of(block);
        block[CHECK..].copy_from_slice(&check.to_le_bytes());
    }
    // As many as there are places: all can stand, and they are too many.
    says(&image[..65_536 * BLOCK], Fault::Rule(65_536), "65,536");
    says(&image[..65_535 * BLOCK], Fault::Rule(65_535), "65,535");
    says(&image[..65_537 * BLOCK], Fault::Rule(65_536), "65,537");
    says(&image, Fault::Rule(65_536), "65,539");
    // What comes before it is named before it; a wrong check behind it before both.
    image[65_535 * BLOCK] = 1;
    seal(&mut image, 65_535);
    says(&image, Fault::Rule(65_535), "a head as block 65,535");
    image[65_538 * BLOCK + CHECK] ^= 1;
    says(&image, Fault::Check(65_538), "and a wrong check behind");
    image.pop();
    says(&image, Fault::WrongLength, "and a byte short");
}

/// What each way of damage foretells, number and place, on many images; and each place that a way can name is met.
#[test]
fn what_the_ways_foretell() {
    let mut rng = Rng::new(15);
    let mut met: BTreeMap<String, [usize; 3]> = BTreeMap::new();
    for seed in 0..150 {
        let good = to_vec(&table(seed)).unwrap();
        for what in Damage::ALL {
            let Some(sample) = damage(&good, what, &mut rng) else {
                continue;
            };
            assert_eq!(sample.damage, what);
            let told = sample.foretold.map(|told| told.map_err(Refusal::from));
            assert_eq!(told, what.foretold(), "{what:?}");
            match sample.foretold {
                Some(Err(fault)) => says(&sample.image, fault, &format!("{what:?}")),
                Some(Ok(())) => accepted(&sample.image),
                None => {
                    let fault = load(&sample.image).err();
                    let number = fault.map(|fault| fault.refusal().number());
                    let slow = finding(&sample.image);
                    assert_eq!(slow, number.map(|number| (number, fault.unwrap().place())));
                }
            }
            let blocks = count(&sample.image);
            let class = match load(&sample.image).err().and_then(Fault::place) {
                Some(0) => 0,
                Some(at) if at < blocks => 1,
                Some(_) => 2,
                None => continue,
            };
            met.entry(format!("{what:?}")).or_default()[class] += 1;
        }
    }
    // Named in front, named later, and the count.
    for (what, classes) in [
        (Damage::CheckByte, [true, true, false]),
        (Damage::ContentByte, [true, true, false]),
        (Damage::ZeroBlock, [true, true, false]),
        (Damage::BlockFlipped, [true, true, false]),
        (Damage::SwapUnsealed, [true, true, false]),
        (Damage::TwoChecks, [true, true, false]),
        (Damage::CheckAndStray, [true, true, false]),
        (Damage::KindWrong, [true, true, true]),
        (Damage::EditionWrong, [true, true, false]),
        (Damage::EditionMixed, [false, false, true]),
        (Damage::EditionUnfit, [false, false, true]),
        (Damage::EditionOther, [false, false, true]),
        (Damage::PlaceWrong, [true, true, false]),
        (Damage::FlippedSealed, [true, true, false]),
        (Damage::TailCut, [false, false, true]),
        (Damage::BlockDropped, [true, true, true]),
        (Damage::BlockAdded, [false, true, true]),
        (Damage::BlockDoubled, [false, true, false]),
        (Damage::ZeroBlockAdded, [false, true, true]),
        (Damage::KindsSwapped, [true, false, true]),
        (Damage::PlacesSwapped, [true, true, false]),
        (Damage::ForeignElsewhere, [true, true, false]),
        (Damage::ForeignBlock, [false, false, true]),
        (Damage::TwoStrays, [true, true, false]),
        (Damage::StrayAndRule, [true, true, false]),
        (Damage::OpenMissing, [false, false, true]),
    ] {
        let found = met[&format!("{what:?}")].map(|count| count > 0);
        assert_eq!(found, classes, "{what:?}");
    }
}
