//! Refusals of a whole call: by number and order, and every buffer as found.

use access_table::{raw, run, run_into, Refusal, Table, BLOCK, MAX_SCHEDULE};
use evidence::image::check_of;

/// An image with something in it.
fn saved() -> Vec<u8> {
    let run = run(None, b"N 2 3\nW 1 1 2\nW 2 3 1\nD 2 1 1\n").unwrap();
    run.image.unwrap()
}

/// An image whose one broken rule is that 65 cells are too many.
fn broken() -> Vec<u8> {
    let mut image = saved();
    image[5] = 65;
    put_checks_right(&mut image);
    image
}

fn put_checks_right(image: &mut [u8]) {
    for block in image.chunks_exact_mut(BLOCK) {
        let check = check_of(block);
        block[508..].copy_from_slice(&check.to_le_bytes());
    }
}

/// A call that has to be refused with this number, and to leave its buffers.
fn refused(image: &[u8], schedule: &[u8], sizes: [usize; 3], number: u64) {
    let [mut answers, mut after] = [vec![0xa5; sizes[0]], vec![0x5a; sizes[1]]];
    let mut lengths = vec![77; sizes[2]];
    let found = raw::access_run(image, schedule, &mut answers, &mut after, &mut lengths);
    assert_eq!(found, number, "{sizes:?}");
    assert!(answers.iter().all(|&b| b == 0xa5), "answers, {sizes:?}");
    assert!(after.iter().all(|&b| b == 0x5a), "image_out, {sizes:?}");
    assert!(lengths.iter().all(|&l| l == 77), "lengths, {sizes:?}");
}

#[test]
fn the_images_refusals_come_before_fourteen() {
    let mut damaged = saved();
    damaged[600] ^= 1;
    let long = vec![b'\n'; MAX_SCHEDULE + 1];
    let buffers = [[0, 0, 0], [400_000, 20_000, 2], [0, 20_000, 1]];
    for sizes in buffers {
        for schedule in [&b""[..], b"R 1 1\n", &long] {
            refused(&damaged, schedule, sizes, 12);
            refused(&saved()[..511], schedule, sizes, 15);
            refused(&damaged[..damaged.len() - 1], schedule, sizes, 15);
            refused(&[0; 512], schedule, sizes, 12);
            refused(&broken(), schedule, sizes, 13);
        }
        refused(&saved(), &long, sizes, 14);
        refused(&[], &long, sizes, 14);
    }
}

/// Every buffer that is too short, by one and to nothing.
#[test]
fn fourteen_for_each_buffer() {
    let image = saved();
    let schedule = b"R 2 1\nT 1 1 3\nbad\n";
    let done = run(Some(&image), schedule).unwrap();
    let (answers, after) = (done.answers.len(), done.image.unwrap().len());
    for short in 0..answers {
        refused(&image, schedule, [short, after, 2], 14);
    }
    for short in (0..after).step_by(37).chain([after - 1]) {
        refused(&image, schedule, [answers, short, 2], 14);
    }
    for short in [0, 1] {
        refused(&image, schedule, [answers, after, short], 14);
        refused(&image, b"", [0, after, short], 14);
        refused(&[], b"", [0, 0, short], 14);
    }
}

#[test]
fn the_wrapper_gives_the_same() {
    let mut damaged = saved();
    damaged[600] ^= 1;
    let long = vec![b'\n'; MAX_SCHEDULE + 1];
    assert_eq!(run(Some(&damaged[1..]), b""), Err(Refusal::Cut));
    assert_eq!(run(Some(&damaged), b""), Err(Refusal::Damaged));
    assert_eq!(run(Some(&broken()), b""), Err(Refusal::Broken));
    assert_eq!(run(Some(&saved()), &long), Err(Refusal::Short));
    assert_eq!(run(None, &long), Err(Refusal::Short));
    assert_eq!(Table::load(&damaged[1..]), Err(Refusal::Cut));
    assert_eq!(Table::load(&damaged), Err(Refusal::Damaged));
    assert_eq!(Table::load(&broken()), Err(Refusal::Broken));

    let (mut answers, mut after) = ([1; 64], [2; 4096]);
    for (image, schedule) in [
        (&damaged[1..].to_vec(), &b"R 1 1\n"[..]),
        (&damaged, b"R 1 1\n"),
        (&broken(), b"R 1 1\n"),
        (&saved(), &long),
        (&saved(), &[b'\n'; 13]),
    ] {
        assert!(run_into(Some(image), schedule, &mut answers, &mut after).is_err());
    }
    assert_eq!((answers, after), ([1; 64], [2; 4096]));
}

/// To the library no bytes are no table yet; a file of no bytes is no image.
#[test]
fn no_image_and_an_empty_one() {
    assert_eq!(run(None, b"").map(|run| run.image), Ok(None));
    assert_eq!(run(Some(b""), b""), Err(Refusal::Cut));
    assert_eq!(Table::load(b""), Err(Refusal::Cut));
    assert_eq!(
        run_into(Some(b""), b"", &mut [], &mut []),
        Err(Refusal::Cut)
    );
    assert_eq!(Table::new().image(), None);
}

#[test]
fn a_refused_run_leaves_the_table() {
    let mut table = Table::load(&saved()).unwrap();
    let long = vec![b'\n'; MAX_SCHEDULE + 1];
    assert_eq!(table.run(&long), Err(Refusal::Short));
    assert_eq!(table.image(), Some(&saved()[..]));
    assert_eq!(table.run(b"R 1 1\n").unwrap(), b"R 2 1.1\n");
}

#[test]
fn numbers_and_words() {
    assert_eq!(Refusal::ALL.map(Refusal::number), [15, 12, 13, 14]);
    for number in 0..20 {
        let back = Refusal::from_number(number).map(Refusal::number);
        assert_eq!(back, (12..=15).contains(&number).then_some(number));
    }
    assert_eq!(Refusal::from_number(12 + (1 << 32)), None);
    for refusal in Refusal::ALL {
        assert!(refusal.to_string().contains(&refusal.number().to_string()));
        let _: &dyn std::error::Error = &refusal;
    }
}
