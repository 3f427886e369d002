//! The replicated access table, from Rust: a safe wrapper of the proved static
//! library `capi`.
//!
//! A [`Table`] runs schedule text, a step to a line, and answers each line; it
//! carries its saved image from one run to the next. [`run`] does one such run
//! from an image to an image, and [`run_into`] the same into buffers that the
//! caller lends. [`inspect`] says what is wrong with an image, and where.
//!
//! ```
//! use access_table::{inspect, Finding, Refusal, Table};
//!
//! # fn main() -> Result<(), Refusal> {
//! // Two desks, one record. Desk 1 writes "step-free"; desk 2 has not heard of it.
//! let mut table = Table::new();
//! assert_eq!(table.run(b"N 2 1\nW 1 1 1\nR 2 1\n")?, b"N\nW 1.1\nR -\n");
//!
//! // Save it, and go on elsewhere: the write is delivered, and desk 2 reads it.
//! let saved = table.into_image().expect("the N line was accepted");
//! let mut table = Table::load(&saved)?;
//! assert_eq!(table.run(b"D 2 1 1\nR 2 1\nT 2 1\n")?, b"A 1.1\nR 1 1.1\nT yes\n");
//!
//! // An image that was cut or damaged is refused, by the paper's number.
//! let refusal = Table::load(&saved[1..]).unwrap_err();
//! assert_eq!((refusal, refusal.number()), (Refusal::Cut, 15));
//!
//! // What is wrong with it, and where, in words too.
//! let mut worse = saved.clone();
//! worse[3 * 512 + 20] ^= 1;
//! assert_eq!(inspect(&worse), Finding::Damaged { block: 3 });
//! assert_eq!(inspect(&worse).to_string(), "block 3 is damaged");
//! # Ok(())
//! # }
//! ```
//!
//! A refused *line* is no error: its answer is `E` and its number, and the run
//! goes on. An error is a refusal of the whole call, and leaves everything as
//! it was.
//!
//! # What is proved
//!
//! Of the library: the number that a call returns and every byte that it
//! leaves in a lent buffer, for all input (`accessRun` and `accessInspect` in
//! `crates/capi/specs/Access.antt`). Not of this package: it is Rust, and is
//! tested. Its two `unsafe` blocks are in [`raw`].
//!
//! # Panics
//!
//! Every function here panics if the library answers with a number, a length or
//! a place that its contract rules out. The proved library does not.

#![deny(unsafe_op_in_unsafe_fn)]
#![warn(missing_docs)]

pub mod raw;

use std::fmt;

/// The longest schedule of one run, in bytes.
pub const MAX_SCHEDULE: usize = 65_536;

/// The length of a block of an image.
pub const BLOCK: usize = 512;

/// The length of the largest image: 105 blocks, of 16 desks. With up to 8 desks
/// an image has at most 37.
pub const MAX_IMAGE: usize = 105 * BLOCK;

/// A length that the answers to a schedule of so many bytes never exceed.
///
/// Five bytes for each byte (an empty line is 1 byte, and its answer, `E 10`
/// and LF, is 5), and 9 for the name of each write that came held with the
/// image, at most 64 at each of 15 desks. The formula is proved: `enough` in
/// `crates/capi/specs/BuffersEnough.antt`, from `answers-fit` in
/// `crates/session/specs/AnswersBound.antt`.
pub const fn answers_bound(schedule: usize) -> usize {
    5 * schedule + 9 * 64 * 15
}

/// Why a whole call was refused, by the paper's numbers. [`inspect`] tells more
/// of an image.
#[derive(Clone, Copy, Debug, PartialEq, Eq, PartialOrd, Ord, Hash)]
pub enum Refusal {
    /// 15: the image's length is not a nonzero multiple of 512.
    Cut = 15,
    /// 12: a block check of the image is wrong.
    Damaged = 12,
    /// 13: the image breaks another rule.
    Broken = 13,
    /// 14: the schedule is longer than [`MAX_SCHEDULE`], or a lent buffer is
    /// too short.
    Short = 14,
}

impl Refusal {
    /// The refusals, in the order in which a call tests for them.
    pub const ALL: [Refusal; 4] = [
        Refusal::Cut,
        Refusal::Damaged,
        Refusal::Broken,
        Refusal::Short,
    ];

    /// Its number.
    pub const fn number(self) -> u64 {
        self as u64
    }

    /// The refusal with this number, if a call has one.
    pub fn from_number(number: u64) -> Option<Refusal> {
        Refusal::ALL.into_iter().find(|r| r.number() == number)
    }
}

impl fmt::Display for Refusal {
    fn fmt(&self, f: &mut fmt::Formatter<'_>) -> fmt::Result {
        let words = match self {
            Refusal::Cut => "the image is no whole number of blocks",
            Refusal::Damaged => "a block check of the image is wrong",
            Refusal::Broken => "the image breaks a rule",
            Refusal::Short => "the schedule is too long or a lent buffer too short",
        };
        write!(f, "{words} (refusal {})", self.number())
    }
}

impl std::error::Error for Refusal {}

/// How many bytes a call wrote.
#[derive(Clone, Copy, Debug, PartialEq, Eq, Hash)]
pub struct Lengths {
    /// To the front of `answers`.
    pub answers: usize,
    /// To the front of `image_out`; 0 if there is no table.
    pub image: usize,
}

/// What a run gave.
#[derive(Clone, Debug, PartialEq, Eq, Hash)]
pub struct Run {
    /// A line for each line of the schedule, each with its LF.
    pub answers: Vec<u8>,
    /// The image of the table after it, or `None` if there is no table yet.
    pub image: Option<Vec<u8>>,
}

/// Runs a schedule from the table in an image (`None`: no table yet), into
/// buffers that the caller lends, and says how many bytes it wrote to each.
/// What lies behind them stays.
///
/// A buffer of [`answers_bound`] and one of [`MAX_IMAGE`] bytes are never too
/// short.
///
/// # Errors
///
/// [`Refusal::Cut`], [`Refusal::Damaged`] or [`Refusal::Broken`] for the image (an
/// empty one is `Cut`), and then [`Refusal::Short`] for a schedule over
/// [`MAX_SCHEDULE`] bytes or a buffer that is too short. Both buffers are then as
/// found.
pub fn run_into(
    image: Option<&[u8]>,
    schedule: &[u8],
    answers: &mut [u8],
    image_out: &mut [u8],
) -> Result<Lengths, Refusal> {
    // To the library an empty image is no table yet. As an image it is none.
    if image.is_some_and(<[u8]>::is_empty) {
        return Err(Refusal::Cut);
    }
    let image = image.unwrap_or_default();
    let mut lengths = [0; 2];
    match raw::access_run(image, schedule, answers, image_out, &mut lengths) {
        0 => Ok(Lengths {
            answers: within(lengths[0], answers),
            image: within(lengths[1], image_out),
        }),
        number => Err(Refusal::from_number(number).unwrap_or_else(|| {
            panic!("the library capi gave {number}, which its contract rules out")
        })),
    }
}

/// A length that the library gave, for a buffer that it was lent.
fn within(length: u64, buffer: &[u8]) -> usize {
    match usize::try_from(length) {
        Ok(length) if length <= buffer.len() => length,
        _ => panic!("the library capi wrote {length} bytes, which its contract rules out"),
    }
}

/// Runs a schedule from the table in an image (`None`: no table yet).
///
/// # Errors
///
/// [`Refusal::Cut`], [`Refusal::Damaged`] or [`Refusal::Broken`] for the image (an
/// empty one is `Cut`), and then [`Refusal::Short`] for a schedule over
/// [`MAX_SCHEDULE`] bytes.
pub fn run(image: Option<&[u8]>, schedule: &[u8]) -> Result<Run, Refusal> {
    // A longer schedule is refused, whatever the buffers.
    let mut answers = vec![0; answers_bound(schedule.len().min(MAX_SCHEDULE))];
    let mut after = vec![0; MAX_IMAGE];
    let lengths = run_into(image, schedule, &mut answers, &mut after)?;
    Ok(Run {
        answers: answers[..lengths.answers].to_vec(),
        image: (lengths.image > 0).then(|| after[..lengths.image].to_vec()),
    })
}

/// What is wrong with an image, and where; or the size of its table, if nothing
/// is. Blocks count from 0.
///
/// Its [`Display`](fmt::Display) says it in words.
#[derive(Clone, Copy, Debug, PartialEq, Eq, Hash)]
pub enum Finding {
    /// The image is accepted.
    Table {
        /// Its desks, 1 to 16.
        desks: usize,
        /// Its cells, 1 to 64.
        cells: usize,
        /// Its open writes, at most 64.
        open: usize,
    },
    /// 15: the length is not a nonzero multiple of 512.
    Cut {
        /// The length.
        bytes: usize,
    },
    /// 12: the check of a block is wrong.
    Damaged {
        /// The first such block.
        block: usize,
    },
    /// 13: every check is right, and the place, edition or kind of a block cannot
    /// stand there.
    Misplaced {
        /// The first such block.
        block: usize,
    },
    /// 13: every check is right and every block can stand where it is, but
    /// another rule is broken.
    Broken,
}

impl Finding {
    /// The number of its refusal, or 0 for a table.
    pub const fn number(self) -> u64 {
        match self.refusal() {
            Some(refusal) => refusal.number(),
            None => 0,
        }
    }

    /// The refusal with which a load answers; `None` for a table.
    pub const fn refusal(self) -> Option<Refusal> {
        match self {
            Finding::Table { .. } => None,
            Finding::Cut { .. } => Some(Refusal::Cut),
            Finding::Damaged { .. } => Some(Refusal::Damaged),
            Finding::Misplaced { .. } | Finding::Broken => Some(Refusal::Broken),
        }
    }

    /// The finding that a call wrote about an image of so many bytes; `None` if
    /// the contract rules it out.
    fn of(bytes: usize, five: [u64; 5]) -> Option<Finding> {
        let whole = bytes > 0 && bytes.is_multiple_of(BLOCK);
        let blocks = bytes / BLOCK;
        let [number, place, table @ ..] = five;
        let place = usize::try_from(place).ok()?;
        match (number, table) {
            (0, [desks @ 1..=16, cells @ 1..=64, open @ 0..=64]) if whole && place == 0 => {
                Some(Finding::Table {
                    desks: desks as usize,
                    cells: cells as usize,
                    open: open as usize,
                })
            }
            (15, [0, 0, 0]) if !whole && place == 0 => Some(Finding::Cut { bytes }),
            (12, [0, 0, 0]) if whole && place < blocks => Some(Finding::Damaged { block: place }),
            (13, [0, 0, 0]) if whole && place < blocks => Some(Finding::Misplaced { block: place }),
            (13, [0, 0, 0]) if whole && place == blocks => Some(Finding::Broken),
            _ => None,
        }
    }
}

impl fmt::Display for Finding {
    fn fmt(&self, f: &mut fmt::Formatter<'_>) -> fmt::Result {
        let plural = |count: usize| if count == 1 { "" } else { "s" };
        match *self {
            Finding::Table { desks, cells, open } => {
                let (d, c) = (plural(desks), plural(cells));
                write!(f, "a table of {desks} desk{d} and {cells} cell{c}, ")?;
                match open {
                    0 => write!(f, "no write open"),
                    _ => write!(f, "{open} write{} open", plural(open)),
                }
            }
            Finding::Cut { bytes: 0 } => write!(f, "empty: there are no bytes"),
            Finding::Cut { bytes: 1 } => {
                write!(f, "cut short: 1 byte is no whole number of blocks")
            }
            Finding::Cut { bytes } => {
                write!(f, "cut short: {bytes} bytes are no whole number of blocks")
            }
            Finding::Damaged { block } => write!(f, "block {block} is damaged"),
            Finding::Misplaced { block } => write!(f, "block {block} cannot stand there"),
            Finding::Broken => write!(f, "every block is whole, but the table breaks a rule"),
        }
    }
}

/// Says what is wrong with an image, and where, or how large its table is.
///
/// ```
/// use access_table::{inspect, run, Finding};
///
/// # fn main() -> Result<(), access_table::Refusal> {
/// let saved = run(None, b"N 3 5\nW 1 1 1\nW 2 5 0\n")?.image.unwrap();
/// let table = Finding::Table { desks: 3, cells: 5, open: 2 };
/// assert_eq!(inspect(&saved), table);
/// assert_eq!(table.to_string(), "a table of 3 desks and 5 cells, 2 writes open");
///
/// // The transfer was cut: inside a block, or at a block's end.
/// let cut = inspect(&saved[..700]);
/// assert_eq!(cut, Finding::Cut { bytes: 700 });
/// assert_eq!(cut.to_string(), "cut short: 700 bytes are no whole number of blocks");
/// assert_eq!(inspect(&saved[..1024]), Finding::Broken);
///
/// // Blocks 2 and 3 were exchanged: each is whole, and stands where it cannot.
/// let mut mixed = saved.clone();
/// mixed[2 * 512..4 * 512].rotate_left(512);
/// assert_eq!(inspect(&mixed), Finding::Misplaced { block: 2 });
/// assert_eq!(inspect(&mixed).to_string(), "block 2 cannot stand there");
/// # Ok(())
/// # }
/// ```
pub fn inspect(image: &[u8]) -> Finding {
    let mut five = [0; 5];
    let number = raw::access_inspect(image, &mut five);
    let found = Finding::of(image.len(), five).filter(|_| number == 0);
    found.unwrap_or_else(|| {
        panic!("the library capi gave {number} and {five:?}, which its contract rules out")
    })
}

/// A table, or none yet, that goes on from run to run.
#[derive(Clone, Debug, Default, PartialEq, Eq, Hash)]
pub struct Table {
    image: Option<Vec<u8>>,
}

impl Table {
    /// No table yet: the first accepted `N` line of a run makes one.
    pub fn new() -> Table {
        Table::default()
    }

    /// The table that was saved as this image.
    ///
    /// # Errors
    ///
    /// [`Refusal::Cut`], an empty image included, [`Refusal::Damaged`] or
    /// [`Refusal::Broken`].
    pub fn load(image: &[u8]) -> Result<Table, Refusal> {
        let run = run(Some(image), b"")?;
        Ok(Table { image: run.image })
    }

    /// Runs a schedule, and gives its answers: a line for each line, each with
    /// its LF.
    ///
    /// # Errors
    ///
    /// [`Refusal::Short`] for a schedule over [`MAX_SCHEDULE`] bytes. The
    /// table is then as it was.
    pub fn run(&mut self, schedule: &[u8]) -> Result<Vec<u8>, Refusal> {
        let run = run(self.image(), schedule)?;
        self.image = run.image;
        Ok(run.answers)
    }

    /// The table's image, or `None` if there is no table yet.
    pub fn image(&self) -> Option<&[u8]> {
        self.image.as_deref()
    }

    /// As [`Table::image`], by value.
    pub fn into_image(self) -> Option<Vec<u8>> {
        self.image
    }
}

impl TryFrom<&[u8]> for Table {
    type Error = Refusal;

    fn try_from(image: &[u8]) -> Result<Table, Refusal> {
        Table::load(image)
    }
}

#[cfg(test)]
mod tests {
    use super::Finding;

    /// What the contract rules out is taken for no finding.
    #[test]
    fn findings_that_the_contract_rules_out() {
        let table = Finding::Table {
            desks: 16,
            cells: 64,
            open: 64,
        };
        for (bytes, five, finding) in [
            (1_536, [0, 0, 16, 64, 64], table),
            (0, [15, 0, 0, 0, 0], Finding::Cut { bytes: 0 }),
            (700, [15, 0, 0, 0, 0], Finding::Cut { bytes: 700 }),
            (1_536, [12, 0, 0, 0, 0], Finding::Damaged { block: 0 }),
            (1_536, [12, 2, 0, 0, 0], Finding::Damaged { block: 2 }),
            (1_536, [13, 0, 0, 0, 0], Finding::Misplaced { block: 0 }),
            (1_536, [13, 2, 0, 0, 0], Finding::Misplaced { block: 2 }),
            (1_536, [13, 3, 0, 0, 0], Finding::Broken),
        ] {
            assert_eq!(Finding::of(bytes, five), Some(finding), "{five:?}");
            assert_eq!(finding.number(), five[0]);
        }
        for (bytes, five) in [
            // No table has such a size.
            (1_536, [0, 0, 0, 1, 0]),
            (1_536, [0, 0, 17, 1, 0]),
            (1_536, [0, 0, 1, 0, 0]),
            (1_536, [0, 0, 1, 65, 0]),
            (1_536, [0, 0, 1, 1, 65]),
            // A table of no whole number of blocks, or with a place.
            (700, [0, 0, 1, 1, 0]),
            (0, [0, 0, 1, 1, 0]),
            (1_536, [0, 1, 1, 1, 0]),
            // A length that is right, and a wrong one passed over; a place for 15.
            (1_536, [15, 0, 0, 0, 0]),
            (700, [12, 0, 0, 0, 0]),
            (700, [13, 1, 0, 0, 0]),
            (0, [13, 0, 0, 0, 0]),
            (700, [15, 1, 0, 0, 0]),
            // Places past the last block, and past the count.
            (1_536, [12, 3, 0, 0, 0]),
            (1_536, [13, 4, 0, 0, 0]),
            (1_536, [13, u64::MAX, 0, 0, 0]),
            // A refused image has no size.
            (1_536, [13, 3, 1, 1, 0]),
            (1_536, [12, 2, 0, 0, 1]),
            (700, [15, 0, 0, 1, 0]),
            // Other numbers.
            (1_536, [14, 0, 0, 0, 0]),
            (1_536, [1, 0, 0, 0, 0]),
            (1_536, [12 + (1 << 32), 0, 0, 0, 0]),
        ] {
            assert_eq!(Finding::of(bytes, five), None, "{bytes} {five:?}");
        }
    }
}
