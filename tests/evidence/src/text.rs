//! Schedule text: lines, steps, and `replay`.

#[cfg(test)]
use crate::table::Variant;
use crate::table::{Delivery, Name, Table, Verdict};
use crate::Refusal;

/// The longest line that may be a step, in bytes without its LF.
pub const MAX_LINE: usize = 128;
/// The longest input that [`replay`] runs, in bytes.
pub const MAX_INPUT: usize = 65_536;
/// The most cells that fit on a trip line of [`MAX_LINE`] bytes.
pub const MAX_LISTED: usize = 62;

/// A line as the reader hands it back: a part of the caller's own bytes.
#[derive(Clone, Copy, Debug, PartialEq, Eq)]
pub struct Line<'a> {
    /// The bytes, without the LF.
    pub bytes: &'a [u8],
    /// Whether an LF ended it. Only the last line of a text may have none.
    pub ended: bool,
}

/// The line that begins at a place of the schedule, and the place behind it.
/// At the end it is an empty part; a place past the end counts as the end.
pub fn line_at(schedule: &[u8], place: usize) -> (Line<'_>, usize) {
    let place = place.min(schedule.len());
    let rest = &schedule[place..];
    match rest.iter().position(|&b| b == b'\n') {
        Some(end) => {
            let bytes = &rest[..end];
            (Line { bytes, ended: true }, place + end + 1)
        }
        None => {
            let line = Line {
                bytes: rest,
                ended: false,
            };
            (line, schedule.len())
        }
    }
}

/// A reader: the schedule, and how far it has read.
#[derive(Clone, Debug)]
pub struct Reader<'a> {
    schedule: &'a [u8],
    place: usize,
}

impl<'a> Reader<'a> {
    /// A reader that stands before the first line.
    pub fn new(schedule: &'a [u8]) -> Reader<'a> {
        Reader { schedule, place: 0 }
    }

    /// How many bytes have been read.
    pub fn place(&self) -> usize {
        self.place
    }
}

impl<'a> Iterator for Reader<'a> {
    type Item = Line<'a>;

    fn next(&mut self) -> Option<Line<'a>> {
        if self.place >= self.schedule.len() {
            return None;
        }
        let (line, place) = line_at(self.schedule, self.place);
        self.place = place;
        Some(line)
    }
}

/// The cells of a trip line, as many as a line can hold.
#[derive(Clone, Copy, Debug, PartialEq, Eq)]
pub struct Cells {
    list: [u16; MAX_LISTED],
    count: usize,
}

impl std::ops::Deref for Cells {
    type Target = [u16];

    fn deref(&self) -> &[u16] {
        &self.list[..self.count]
    }
}

/// A line that has the form of a step.
#[derive(Clone, Copy, Debug, PartialEq, Eq)]
#[allow(clippy::large_enum_variant)]
pub enum Step {
    /// `N n m`
    New {
        /// The number of desks.
        n: u16,
        /// The number of cells.
        m: u16,
    },
    /// `R i x`
    Read {
        /// The desk.
        desk: u16,
        /// The cell.
        cell: u16,
    },
    /// `W i x v`
    Write {
        /// The desk.
        desk: u16,
        /// The cell.
        cell: u16,
        /// The status.
        status: u16,
    },
    /// `D i u k`
    Deliver {
        /// The receiving desk.
        desk: u16,
        /// The writing desk.
        writer: u16,
        /// The write's number.
        number: u16,
    },
    /// `T i x x ..`
    Trip {
        /// The desk.
        desk: u16,
        /// The cells, none to many.
        cells: Cells,
    },
}

/// Takes a line (without its LF) apart. Refusal: 10.
pub fn parse(line: &[u8]) -> Result<Step, Refusal> {
    if line.len() > MAX_LINE {
        return Err(Refusal::NoStep);
    }
    let (&letter, mut rest) = line.split_first().ok_or(Refusal::NoStep)?;
    let rest = &mut rest;
    let step = match letter {
        b'N' => Step::New {
            n: field(rest)?,
            m: field(rest)?,
        },
        b'R' => Step::Read {
            desk: field(rest)?,
            cell: field(rest)?,
        },
        b'W' => Step::Write {
            desk: field(rest)?,
            cell: field(rest)?,
            status: field(rest)?,
        },
        b'D' => Step::Deliver {
            desk: field(rest)?,
            writer: field(rest)?,
            number: field(rest)?,
        },
        b'T' => {
            let desk = field(rest)?;
            let mut cells = Cells {
                list: [0; MAX_LISTED],
                count: 0,
            };
            while !rest.is_empty() {
                cells.list[cells.count] = field(rest)?;
                cells.count += 1;
            }
            Step::Trip { desk, cells }
        }
        _ => return Err(Refusal::NoStep),
    };
    if rest.is_empty() {
        Ok(step)
    } else {
        Err(Refusal::NoStep)
    }
}

/// Takes one space and one number off the front.
fn field(rest: &mut &[u8]) -> Result<u16, Refusal> {
    let [b' ', tail @ ..] = *rest else {
        return Err(Refusal::NoStep);
    };
    let digits = tail.iter().take_while(|b| b.is_ascii_digit()).count();
    let (number, tail) = tail.split_at(digits);
    if digits == 0 || digits > 5 || (digits > 1 && number[0] == b'0') {
        return Err(Refusal::NoStep);
    }
    let value = number
        .iter()
        .fold(0u32, |sum, b| sum * 10 + u32::from(b - b'0'));
    *rest = tail;
    u16::try_from(value).map_err(|_| Refusal::NoStep)
}

/// A run of schedule lines: no table yet, or a table.
#[derive(Clone, Debug, Default)]
pub struct Session {
    table: Option<Table>,
    #[cfg(test)]
    pub(crate) variant: Option<Variant>,
}

impl Session {
    /// A session without a table.
    pub fn new() -> Session {
        Session::default()
    }

    /// A session that goes on with a table, after its N.
    pub fn with_table(table: Table) -> Session {
        Session {
            #[cfg(test)]
            variant: table.variant,
            table: Some(table),
        }
    }

    /// The table, after an accepted N.
    pub fn table(&self) -> Option<&Table> {
        self.table.as_ref()
    }

    /// Runs one line and appends its answer line, with LF, to `out`.
    pub fn answer(&mut self, line: Line<'_>, out: &mut Vec<u8>) {
        if let Err(refusal) = self.run(line, out) {
            out.extend_from_slice(b"E ");
            push_number(out, refusal.number().into());
        }
        out.push(b'\n');
    }

    /// Runs one line; appends the answer of an accepted step, nothing else.
    fn run(&mut self, line: Line<'_>, out: &mut Vec<u8>) -> Result<(), Refusal> {
        if !line.ended {
            return Err(Refusal::NoStep);
        }
        let step = parse(line.bytes)?;
        let Some(table) = &mut self.table else {
            let Step::New { n, m } = step else {
                return Err(Refusal::NoStep);
            };
            self.table = Some(self.fresh(n, m)?);
            out.push(b'N');
            return Ok(());
        };
        match step {
            Step::New { .. } => return Err(Refusal::NoStep),
            Step::Read { desk, cell } => match table.read(desk, cell)? {
                Some(reading) => {
                    out.extend_from_slice(b"R ");
                    push_number(out, reading.status.into());
                    push_name(out, reading.write);
                }
                None => out.extend_from_slice(b"R -"),
            },
            Step::Write { desk, cell, status } => {
                let name = table.write(desk, cell, status)?;
                out.push(b'W');
                push_name(out, name);
            }
            Step::Deliver {
                desk,
                writer,
                number,
            } => match table.deliver(desk, writer, number)? {
                Delivery::Held(missing) => {
                    out.push(b'H');
                    push_name(out, missing);
                }
                Delivery::Applied(names) => {
                    out.push(b'A');
                    for &name in names {
                        push_name(out, name);
                    }
                }
            },
            Step::Trip { desk, cells } => {
                let verdict = table.trip(desk, &cells)?;
                out.extend_from_slice(match verdict {
                    Verdict::Yes => b"T yes",
                    Verdict::No => b"T no",
                    Verdict::Unknown => b"T unknown",
                });
            }
        }
        Ok(())
    }

    #[cfg(not(test))]
    fn fresh(&self, n: u16, m: u16) -> Result<Table, Refusal> {
        Table::new(n, m)
    }

    #[cfg(test)]
    fn fresh(&self, n: u16, m: u16) -> Result<Table, Refusal> {
        let mut table = Table::new(n, m)?;
        table.variant = self.variant;
        Ok(table)
    }
}

/// All of `replay`'s output for an input: one line for each input line.
pub fn replay(input: &[u8]) -> Vec<u8> {
    replay_in(Session::new(), input)
}

/// As [`replay`], but from where `session` stands.
pub fn replay_in(mut session: Session, input: &[u8]) -> Vec<u8> {
    if input.len() > MAX_INPUT {
        return b"E 14\n".to_vec();
    }
    let mut out = Vec::with_capacity(input.len() + 64);
    for line in Reader::new(input) {
        session.answer(line, &mut out);
    }
    out
}

/// Appends a number in decimal.
fn push_number(out: &mut Vec<u8>, number: u16) {
    let mut digits = [0; 5];
    let mut first = digits.len();
    let mut rest = number;
    loop {
        first -= 1;
        digits[first] = b'0' + (rest % 10) as u8;
        rest /= 10;
        if rest == 0 {
            break;
        }
    }
    out.extend_from_slice(&digits[first..]);
}

/// Appends a space and a write name.
fn push_name(out: &mut Vec<u8>, name: Name) {
    out.push(b' ');
    push_number(out, name.desk.into());
    out.push(b'.');
    push_number(out, name.number);
}
