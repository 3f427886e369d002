//! Document 01's session, in one call and in two at every place.

use access_table::{run, Table};

const SCHEDULE: &[u8] = include_bytes!("../../../examples/session.txt");
const ANSWERS: &[u8] = include_bytes!("../../../examples/session.out");

/// The place behind each line, and 0.
fn line_ends(text: &[u8]) -> Vec<usize> {
    let ends = (1..=text.len()).filter(|&at| text[at - 1] == b'\n');
    std::iter::once(0).chain(ends).collect()
}

#[test]
fn in_one_call() {
    let whole = run(None, SCHEDULE).unwrap();
    assert_eq!(whole.answers, ANSWERS);
    // 3 desks with 2 cells; 2.1 has yet to reach desk 1.
    assert_eq!(whole.image.map(|image| image.len()), Some(8 * 512));
}

#[test]
fn cut_at_every_line_end() {
    let whole = run(None, SCHEDULE).unwrap();
    let cuts = line_ends(SCHEDULE);
    assert_eq!(cuts.len(), 19);
    for cut in cuts {
        let first = run(None, &SCHEDULE[..cut]).unwrap();
        assert_eq!(first.image.is_none(), cut == 0);
        let second = run(first.image.as_deref(), &SCHEDULE[cut..]).unwrap();
        assert_eq!([first.answers, second.answers].concat(), ANSWERS, "{cut}");
        assert_eq!(second.image, whole.image, "{cut}");
    }
}

#[test]
fn a_line_to_a_call() {
    let whole = run(None, SCHEDULE).unwrap();
    let mut table = Table::new();
    let mut answers = Vec::new();
    for line in SCHEDULE.split_inclusive(|&b| b == b'\n') {
        answers.extend(table.run(line).unwrap());
        // What a table is goes through its image.
        if let Some(image) = table.image() {
            assert_eq!(Table::load(image), Ok(table.clone()));
            assert_eq!(Table::try_from(image), Ok(table.clone()));
        }
    }
    assert_eq!(answers, ANSWERS);
    assert_eq!(table.into_image(), whole.image);
}

/// After each line the image is that of the independent
/// implementation.
#[test]
fn the_images_are_those_of_evidence() {
    use evidence::text::{Reader, Session};
    let mut session = Session::new();
    let mut table = Table::new();
    for line in Reader::new(SCHEDULE) {
        session.answer(line, &mut Vec::new());
        let text = [line.bytes, b"\n"].concat();
        table.run(&text).unwrap();
        let image = session.table().map(|t| evidence::image::to_vec(t).unwrap());
        assert_eq!(table.image(), image.as_deref());
    }
}
