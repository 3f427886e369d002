//! The points: what is called, and with what.

use access_table::{answers_bound, raw, MAX_IMAGE, MAX_SCHEDULE};
use evidence::gen::schedule_from;
use evidence::image;
use evidence::table::Table;
use evidence::text::{Reader, Session};
use std::hint::black_box;

#[derive(Clone, Copy, PartialEq, Eq)]
pub enum Side {
    Proved,
    Plain,
}

impl Side {
    pub const ALL: [Side; 2] = [Side::Proved, Side::Plain];

    pub fn name(self) -> &'static str {
        match self {
            Side::Proved => "proved",
            Side::Plain => "plain",
        }
    }

    pub fn from_name(name: &str) -> Option<Side> {
        Side::ALL.into_iter().find(|side| side.name() == name)
    }
}

/// What grows, and the sizes at which it is measured.
pub fn points() -> Vec<(&'static str, usize)> {
    let sizes: [(&'static str, &[usize]); 10] = [
        ("lines", &[0, 500, 1000, 2000, 3000, 4000, 5000, 6000]),
        ("desks", &[1, 2, 3, 4, 5, 6, 7, 8, 9, 10, 12, 14, 16]),
        ("open", &[0, 8, 16, 24, 32, 40, 48, 56, 63]),
        ("open+load", &[0, 8, 16, 24, 32, 40, 48, 56, 63]),
        ("load", &[0, 16, 32, 48, 64]),
        ("load+save", &[0, 16, 32, 48, 64]),
        ("load16", &[0, 16, 32, 48, 64]),
        ("load16+save", &[0, 16, 32, 48, 64]),
        ("inspect16", &[0, 64]),
        ("misplaced16", &[0, 64]),
    ];
    let each = |(what, sizes): (&'static str, &'static [usize])| {
        sizes.iter().map(move |size| (what, *size))
    };
    sizes.into_iter().flat_map(each).collect()
}

pub struct Task {
    image: Vec<u8>,
    schedule: Vec<u8>,
    /// The image is loaded, and the call then refused: `lengths` is too short.
    only_load: bool,
    /// The image is inspected.
    inspect: bool,
    answers: Vec<u8>,
    image_out: Vec<u8>,
}

impl Task {
    pub fn new(what: &str, size: usize) -> Option<Task> {
        let (image, schedule) = match what {
            "lines" => (Vec::new(), traffic(8, size)),
            "desks" => (Vec::new(), traffic(size, 2000)),
            "open" => (Vec::new(), [undelivered(size), delivered(size)].concat()),
            "open+load" => (saved(&undelivered(size)), delivered(size)),
            "load" | "load+save" => (largest(8, size), Vec::new()),
            "load16" | "load16+save" | "inspect16" => (largest(16, size), Vec::new()),
            "misplaced16" => (misplaced(largest(16, size)), Vec::new()),
            _ => return None,
        };
        assert!(
            schedule.len() <= MAX_SCHEDULE,
            "the schedule of {what} {size} is too long"
        );
        Some(Task {
            answers: vec![0; answers_bound(schedule.len())],
            image_out: vec![0; MAX_IMAGE],
            only_load: matches!(what, "load" | "load16"),
            inspect: matches!(what, "inspect16" | "misplaced16"),
            image,
            schedule,
        })
    }

    pub fn call(&mut self, side: Side) {
        match side {
            Side::Proved if self.inspect => {
                let mut finding = [0; 5];
                assert_eq!(raw::access_inspect(&self.image, &mut finding), 0);
                black_box(finding);
            }
            Side::Proved => self.proved(),
            Side::Plain if self.inspect => {
                let _ = black_box(image::load(&self.image));
            }
            Side::Plain => self.plain(),
        }
    }

    fn proved(&mut self) {
        let mut lengths = [0; 2];
        let lent = if self.only_load {
            &mut lengths[..0]
        } else {
            &mut lengths[..]
        };
        let number = raw::access_run(
            &self.image,
            &self.schedule,
            &mut self.answers,
            &mut self.image_out,
            lent,
        );
        assert_eq!(number, if self.only_load { 14 } else { 0 });
        black_box(&self.answers);
    }

    fn plain(&mut self) {
        let mut session = match self.image.is_empty() {
            true => Session::new(),
            false => Session::with_table(image::load(&self.image).expect("an image")),
        };
        if !self.only_load {
            self.answers.clear();
            for line in Reader::new(&self.schedule) {
                session.answer(line, &mut self.answers);
            }
            if let Some(table) = session.table() {
                image::save(table, &mut self.image_out).expect("room");
            }
            // The length that the proved side is lent.
            self.answers.resize(self.answers.capacity(), 0);
        }
        black_box((&session, &self.answers));
    }
}

/// Lines of traffic on a fresh table of so many desks and 64 cells.
fn traffic(desks: usize, lines: usize) -> Vec<u8> {
    let table = Table::new(desks as u16, 64).expect("a table");
    let mut text = format!("N {desks} 64\n").into_bytes();
    if lines > 0 {
        text.extend(schedule_from(&table, 7, lines));
    }
    text
}

/// A table of 3 desks where so many writes of desk 2 have yet to reach desk 3.
fn undelivered(count: usize) -> Vec<u8> {
    let lines = (1..=count).map(|k| format!("W 2 1 1\nD 1 2 {k}\n"));
    format!("N 3 4\n{}", lines.collect::<String>()).into_bytes()
}

/// Again and again desk 1 writes and both others apply it, which leaves those open; with the lines above 1,500 in all.
fn delivered(count: usize) -> Vec<u8> {
    let lines = (1..=500 - 2 * count / 3).map(|k| format!("W 1 2 1\nD 2 1 {k}\nD 3 1 {k}\n"));
    lines.collect::<String>().into_bytes()
}

/// The image of the table after a text.
fn saved(text: &[u8]) -> Vec<u8> {
    let mut session = Session::new();
    for line in Reader::new(text) {
        session.answer(line, &mut Vec::new());
    }
    let table = session.table().expect("a table");
    image::to_vec(table).expect("an image")
}

/// The image of a table of so many desks and 64 cells, each set at each desk, and so many open writes.
fn largest(desks: u16, open: usize) -> Vec<u8> {
    let mut table = Table::new(desks, 64).expect("a table");
    for cell in 1..=64 {
        let name = table.write(1, cell, 1).expect("a write");
        for desk in 2..=desks {
            table.deliver(desk, 1, name.number).expect("a delivery");
            table.read(desk, cell).expect("a read");
        }
    }
    for k in 0..open as u16 {
        table.write(1 + k % desks, 1 + k % 64, 2).expect("a write");
    }
    image::to_vec(&table).expect("an image")
}

/// The last block is of kind 1, with its check made right.
fn misplaced(mut image: Vec<u8>) -> Vec<u8> {
    let last = image.len() - image::BLOCK;
    let block = &mut image[last..];
    block[0] = 1;
    let check = image::check_of(block);
    block[image::BLOCK - 4..].copy_from_slice(&check.to_le_bytes());
    image
}
