//! The table in place: n desks, m cells, at most 64 open writes, four steps.
//!
//! No step uses the heap. Arguments are 16-bit numbers as they stand in a
//! schedule; desks and cells count from 1. Every step either is refused, and
//! then changes nothing, or is carried out and answered.

use crate::Refusal;
use std::fmt;

/// The most desks a table can have.
pub const MAX_DESKS: usize = 16;
/// The most cells a table can have.
pub const MAX_CELLS: usize = 64;
/// The most writes that can be open at a time.
pub const MAX_OPEN: usize = 64;
/// The most cells one trip can read.
pub const MAX_TRIP: usize = 16;

/// One number for each desk; places past n are zero.
pub type Vector = [u16; MAX_DESKS];

/// The name u.k of a write.
#[derive(Clone, Copy, Debug, PartialEq, Eq, PartialOrd, Ord, Hash)]
pub struct Name {
    /// The writing desk u, from 1.
    pub desk: u8,
    /// Its write number k, from 1.
    pub number: u16,
}

/// What a read of a set cell shows.
#[derive(Clone, Copy, Debug, PartialEq, Eq)]
pub struct Reading {
    /// The status, 0 to 2.
    pub status: u8,
    /// The write that put it there.
    pub write: Name,
}

/// The answer to an accepted delivery.
#[derive(Clone, Copy, Debug, PartialEq, Eq)]
pub enum Delivery<'a> {
    /// Not ready: held. Of the smallest desk whose place fails, the first write
    /// that is not applied there.
    Held(Name),
    /// Applied: the delivered write, then the held ones it set free.
    Applied(&'a [Name]),
}

/// The answer to an accepted trip.
#[derive(Clone, Copy, Debug, PartialEq, Eq)]
pub enum Verdict {
    /// Every cell reads 1.
    Yes,
    /// Some cell reads 2.
    No,
    /// Anything else.
    Unknown,
}

/// Where an accepted write stands at a desk.
#[derive(Clone, Copy, Debug, PartialEq, Eq)]
pub enum Mark {
    /// Not received there.
    Missing,
    /// Received and held there.
    Held,
    /// Applied there.
    Applied,
}

/// An open write as [`Table::open_writes`] shows it.
#[derive(Clone, Copy, Debug, PartialEq, Eq)]
pub struct OpenWrite {
    /// Its name.
    pub name: Name,
    /// The cell it writes, from 1.
    pub cell: u8,
    /// The status it writes.
    pub status: u8,
    /// Its vector.
    pub vector: Vector,
    /// Where it stands at each desk; [`Mark::Missing`] past n.
    pub marks: [Mark; MAX_DESKS],
}

/// Deliberately wrong machines, to show that the checks of this package can
/// fail. Outside this crate's own tests no table is ever one of them:
/// [`Table::is`] is then the constant `false` and the branches vanish.
#[derive(Clone, Copy, Debug, PartialEq, Eq)]
pub(crate) enum Variant {
    /// The clock joins the vector of each write applied.
    JoinOnApply,
    /// u.k is taken as soon as k is at least one above the count of u.
    AtLeastOneAbove,
    /// One held write is applied after a delivery, and no more.
    OneHeldAndStop,
    /// A trip takes unset for 1.
    UnsetAsOne,
    /// A read takes unset for a written 0 with a name.
    UnsetAsZero,
    /// An open entry is freed when all desks have received it.
    FreeWhenReceived,
    /// A read does not join the clock.
    ReadForgets,
    /// The reads of a trip do not join the clock.
    TripForgets,
    /// A write is ready by the first 8 places of its vector.
    ReadyByEight,
    /// A read joins the first 8 places alone.
    ReadJoinsEight,
    /// A write applied elsewhere leaves the first 8 places of its vector there.
    AppliesEight,
    /// The search over held writes stops at desk 8.
    SearchesEight,
    /// A held answer names another write.
    #[cfg(test)]
    Misnames(crate::wrong::Misnamed),
}

/// A cell at one desk. An unset cell is zero all over.
#[derive(Clone, Copy, PartialEq, Eq)]
pub(crate) struct Cell {
    pub(crate) vector: Vector,
    pub(crate) writer: u8,
    pub(crate) status: u8,
}

impl Cell {
    pub(crate) const UNSET: Cell = Cell {
        vector: [0; MAX_DESKS],
        writer: 0,
        status: 0,
    };

    #[inline]
    fn reading(&self) -> Option<Reading> {
        if self.writer == 0 {
            return None;
        }
        Some(Reading {
            status: self.status,
            write: Name {
                desk: self.writer,
                number: self.vector[self.writer as usize - 1],
            },
        })
    }
}

/// One desk. Bit s of `held` says that open entry s is held here.
#[derive(Clone, Copy)]
pub(crate) struct Desk {
    pub(crate) applied: Vector,
    pub(crate) clock: Vector,
    pub(crate) held: u64,
    pub(crate) cells: [Cell; MAX_CELLS],
}

impl Desk {
    const FRESH: Desk = Desk {
        applied: [0; MAX_DESKS],
        clock: [0; MAX_DESKS],
        held: 0,
        cells: [Cell::UNSET; MAX_CELLS],
    };
}

/// An entry for an open write; writer 0 is a free entry. `left` counts the
/// desks that have still to apply it.
#[derive(Clone, Copy)]
pub(crate) struct Entry {
    pub(crate) vector: Vector,
    pub(crate) writer: u8,
    pub(crate) status: u8,
    pub(crate) cell: u8,
    pub(crate) left: u8,
}

impl Entry {
    const FREE: Entry = Entry {
        vector: [0; MAX_DESKS],
        writer: 0,
        status: 0,
        cell: 0,
        left: 0,
    };
}

/// The table: its desks and its open writes.
///
/// Two tables are equal if desks, cells and the set of open writes are; which
/// entry holds an open write makes no difference.
#[derive(Clone)]
pub struct Table {
    pub(crate) n: u8,
    pub(crate) m: u8,
    /// n of them, made with the table.
    pub(crate) desks: Box<[Desk]>,
    pub(crate) entries: [Entry; MAX_OPEN],
    /// Bit s says that entry s is free.
    free: u64,
    /// The open writes of a desk have consecutive numbers, at most 64 of
    /// them, so u.k is found at `index[u][k mod 64]` if it is open.
    index: [[u8; MAX_OPEN]; MAX_DESKS],
    /// The names of the last answer; no part of the table's value.
    listed: [Name; MAX_OPEN],
    #[cfg(test)]
    pub(crate) variant: Option<Variant>,
}

#[inline]
fn bit(s: usize) -> u64 {
    1 << s
}

/// UNIT[u] has 1 at place u. Whole vectors are added and loaded at once; a
/// store to one place and then a load of all would stall.
const UNIT: [Vector; MAX_DESKS] = {
    let mut unit = [[0; MAX_DESKS]; MAX_DESKS];
    let mut u = 0;
    while u < MAX_DESKS {
        unit[u][u] = 1;
        u += 1;
    }
    unit
};

/// A vector with one more at place u; that place is below 65,535.
#[inline]
fn raise(v: &Vector, u: usize) -> Vector {
    let mut out = *v;
    for (x, one) in out.iter_mut().zip(UNIT[u]) {
        *x = x.wrapping_add(one);
    }
    out
}

/// The place by place larger of two vectors.
#[inline]
fn join(a: &Vector, b: &Vector) -> Vector {
    let mut out = *a;
    for (x, y) in out.iter_mut().zip(b) {
        *x = (*x).max(*y);
    }
    out
}

/// What a wrong machine makes of a vector.
fn first_eight(v: &Vector) -> Vector {
    let mut out = *v;
    out[8..].fill(0);
    out
}

impl Table {
    /// A fresh table of n desks and m cells. Refusal: 11.
    pub fn new(n: u16, m: u16) -> Result<Table, Refusal> {
        if !(1..=MAX_DESKS as u16).contains(&n) || !(1..=MAX_CELLS as u16).contains(&m) {
            return Err(Refusal::TableSize);
        }
        Ok(Table {
            n: n as u8,
            m: m as u8,
            desks: vec![Desk::FRESH; n.into()].into(),
            entries: [Entry::FREE; MAX_OPEN],
            free: u64::MAX,
            index: [[0; MAX_OPEN]; MAX_DESKS],
            listed: [Name { desk: 0, number: 0 }; MAX_OPEN],
            #[cfg(test)]
            variant: None,
        })
    }

    /// Reads a cell at a desk: `None` is unset. Refusals in order: 1, 2.
    pub fn read(&mut self, desk: u16, cell: u16) -> Result<Option<Reading>, Refusal> {
        let i = self.desk_place(desk)?;
        let x = self.cell_place(cell)?;
        let joins = !self.is(Variant::ReadForgets);
        let eight = self.is(Variant::ReadJoinsEight);
        let d = &mut self.desks[i];
        let c = &d.cells[x];
        if joins {
            // An unset cell's vector is zero and leaves the clock.
            d.clock = match eight {
                true => join(&d.clock, &first_eight(&c.vector)),
                false => join(&d.clock, &c.vector),
            };
        }
        let reading = c.reading();
        if reading.is_none() && self.is(Variant::UnsetAsZero) {
            let write = Name { desk: 1, number: 1 };
            return Ok(Some(Reading { status: 0, write }));
        }
        Ok(reading)
    }

    /// Writes a status into a cell at a desk and names the write. Refusals in
    /// order: 1, 2, 3, 4, 5.
    pub fn write(&mut self, desk: u16, cell: u16, status: u16) -> Result<Name, Refusal> {
        let i = self.desk_place(desk)?;
        let x = self.cell_place(cell)?;
        if status > 2 {
            return Err(Refusal::Status);
        }
        if self.desks[i].applied[i] == u16::MAX {
            return Err(Refusal::WritesSpent);
        }
        if self.free == 0 {
            return Err(Refusal::OpenFull);
        }
        let status = status as u8;
        let writer = i as u8 + 1;
        let d = &mut self.desks[i];
        let vector = raise(&d.clock, i);
        let number = d.applied[i] + 1;
        d.clock = vector;
        d.applied = raise(&d.applied, i);
        d.cells[x] = Cell {
            vector,
            writer,
            status,
        };
        if self.n > 1 {
            self.open(Entry {
                vector,
                writer,
                status,
                cell: x as u8 + 1,
                left: self.n - 1,
            });
        }
        Ok(Name {
            desk: writer,
            number,
        })
    }

    /// Delivers write `number` of desk `writer` to `desk`. Refusals in order:
    /// 1 (either desk), 6, 7, 8.
    pub fn deliver(
        &mut self,
        desk: u16,
        writer: u16,
        number: u16,
    ) -> Result<Delivery<'_>, Refusal> {
        let i = self.desk_place(desk)?;
        let u = self.desk_place(writer)?;
        if i == u {
            return Err(Refusal::OwnWrite);
        }
        if number == 0 || number > self.desks[u].applied[u] {
            return Err(Refusal::NoSuchWrite);
        }
        if number <= self.desks[i].applied[u] {
            return Err(Refusal::ReceivedBefore);
        }
        // A write that is open no more was applied everywhere.
        let Some(s) = self.find(u, number) else {
            return Err(Refusal::ReceivedBefore);
        };
        if self.desks[i].held & bit(s) != 0 {
            return Err(Refusal::ReceivedBefore);
        }
        if let Some(missing) = self.first_missing(i, s) {
            #[cfg(test)]
            let missing = match self.variant {
                Some(Variant::Misnames(how)) => how.name(self, i, s, missing),
                _ => missing,
            };
            self.desks[i].held |= bit(s);
            if self.is(Variant::FreeWhenReceived) {
                self.one_desk_less(s);
            }
            return Ok(Delivery::Held(missing));
        }
        self.apply(i, s);
        self.listed[0] = Name {
            desk: writer as u8,
            number,
        };
        let mut count = 1;
        while let Some((v, s)) = self.ready_at(i) {
            self.listed[count] = Name {
                desk: v as u8 + 1,
                number: self.entries[s].vector[v],
            };
            count += 1;
            self.apply(i, s);
            if self.is(Variant::OneHeldAndStop) {
                break;
            }
        }
        Ok(Delivery::Applied(&self.listed[..count]))
    }

    /// Reads 1 to 16 cells at a desk, in order, as one step. Refusals in
    /// order: 1, 9, 2.
    pub fn trip(&mut self, desk: u16, cells: &[u16]) -> Result<Verdict, Refusal> {
        let i = self.desk_place(desk)?;
        if cells.is_empty() || cells.len() > MAX_TRIP {
            return Err(Refusal::TripLength);
        }
        for &cell in cells {
            self.cell_place(cell)?;
        }
        let joins = !self.is(Variant::TripForgets);
        let unset_is_one = self.is(Variant::UnsetAsOne);
        let d = &mut self.desks[i];
        let mut all_one = true;
        let mut any_two = false;
        for &cell in cells {
            let c = &d.cells[cell as usize - 1];
            if joins {
                d.clock = join(&d.clock, &c.vector);
            }
            // An unset cell has status 0: neither 1 nor 2.
            all_one &= c.status == 1 || (unset_is_one && c.writer == 0);
            any_two |= c.status == 2;
        }
        Ok(if any_two {
            Verdict::No
        } else if all_one {
            Verdict::Yes
        } else {
            Verdict::Unknown
        })
    }

    /// The number of desks, n.
    pub fn desks(&self) -> u8 {
        self.n
    }

    /// The number of cells, m.
    pub fn cells(&self) -> u8 {
        self.m
    }

    /// How many writes are open.
    pub fn open_count(&self) -> usize {
        MAX_OPEN - self.free.count_ones() as usize
    }

    /// The applied counts of a desk. Refusal: 1.
    pub fn applied(&self, desk: u16) -> Result<Vector, Refusal> {
        Ok(self.desks[self.desk_place(desk)?].applied)
    }

    /// The causal clock of a desk. Refusal: 1.
    pub fn clock(&self, desk: u16) -> Result<Vector, Refusal> {
        Ok(self.desks[self.desk_place(desk)?].clock)
    }

    /// What a cell holds at a desk, with its vector, and without reading it:
    /// the clock stays. Refusals in order: 1, 2.
    pub fn peek(&self, desk: u16, cell: u16) -> Result<Option<(Reading, Vector)>, Refusal> {
        let i = self.desk_place(desk)?;
        let c = &self.desks[i].cells[self.cell_place(cell)?];
        Ok(c.reading().map(|reading| (reading, c.vector)))
    }

    /// The open writes, by writer and then by number.
    pub fn open_writes(&self) -> impl Iterator<Item = OpenWrite> + '_ {
        (0..self.n as usize)
            .flat_map(move |u| {
                let (low, own) = self.open_range(u);
                (low + 1..=own).filter_map(move |k| self.find(u, k as u16))
            })
            .map(move |s| self.show(s))
    }

    /// The open writes of desk place u are those above the first number and
    /// up to the second.
    pub(crate) fn open_range(&self, u: usize) -> (u32, u32) {
        let low = self.desks.iter().map(|d| d.applied[u]).min().unwrap_or(0);
        (low.into(), self.desks[u].applied[u].into())
    }

    /// The entry of the open write u.k (u a place, k a number).
    #[inline]
    pub(crate) fn find(&self, u: usize, number: u16) -> Option<usize> {
        let s = self.index[u][number as usize % MAX_OPEN] as usize;
        let e = &self.entries[s];
        (e.writer as usize == u + 1 && e.vector[u] == number).then_some(s)
    }

    /// What keeps entry s from being applied at i: of the first desk whose
    /// place fails, the first write not applied there. Only for a write above
    /// i's count of its writer.
    #[inline]
    pub(crate) fn first_missing(&self, i: usize, s: usize) -> Option<Name> {
        let e = &self.entries[s];
        let u = e.writer as usize - 1;
        // Of u itself, one less than the write's own number is needed.
        let mut have = raise(&self.desks[i].applied, u);
        if self.is(Variant::AtLeastOneAbove) {
            have[u] = u16::MAX;
        }
        if self.is(Variant::ReadyByEight) {
            have[8..].fill(u16::MAX);
        }
        let lack = |t: usize| e.vector[t].saturating_sub(have[t]);
        if (0..MAX_DESKS).fold(0, |all, t| all | lack(t)) == 0 {
            return None;
        }
        let t = (0..MAX_DESKS).find(|&t| lack(t) > 0)?;
        Some(self.next_of(t, i))
    }

    /// The first write of desk place t that is not applied at i; i has not
    /// applied 65,535 of them.
    #[inline]
    pub(crate) fn next_of(&self, t: usize, i: usize) -> Name {
        Name {
            desk: t as u8 + 1,
            number: self.desks[i].applied[t] + 1,
        }
    }

    /// Puts a write into a free entry; there must be one.
    #[inline]
    pub(crate) fn open(&mut self, entry: Entry) -> usize {
        let s = self.free.trailing_zeros() as usize;
        self.free &= !bit(s);
        let u = entry.writer as usize - 1;
        self.index[u][entry.vector[u] as usize % MAX_OPEN] = s as u8;
        self.entries[s] = entry;
        s
    }

    #[inline]
    fn desk_place(&self, desk: u16) -> Result<usize, Refusal> {
        if desk == 0 || desk > self.n.into() {
            return Err(Refusal::Desk);
        }
        Ok(desk as usize - 1)
    }

    #[inline]
    fn cell_place(&self, cell: u16) -> Result<usize, Refusal> {
        if cell == 0 || cell > self.m.into() {
            return Err(Refusal::Cell);
        }
        Ok(cell as usize - 1)
    }

    /// The ready held write with the smallest writer at desk place i: the
    /// writer's place and the entry.
    #[inline]
    fn ready_at(&self, i: usize) -> Option<(usize, usize)> {
        let d = &self.desks[i];
        if d.held == 0 {
            return None;
        }
        let desks = if self.is(Variant::SearchesEight) {
            self.n.min(8)
        } else {
            self.n
        };
        for v in 0..desks as usize {
            // Of one writer only the next number can be ready.
            let next = d.applied[v].wrapping_add(1);
            let last = if self.is(Variant::AtLeastOneAbove) {
                self.desks[v].applied[v]
            } else {
                next
            };
            for number in next..=last {
                if let Some(s) = self.find(v, number) {
                    if d.held & bit(s) != 0 && self.first_missing(i, s).is_none() {
                        return Some((v, s));
                    }
                }
            }
        }
        None
    }

    /// Applies entry s at desk place i.
    #[inline]
    fn apply(&mut self, i: usize, s: usize) {
        let joins = self.is(Variant::JoinOnApply);
        let overtakes = self.is(Variant::AtLeastOneAbove);
        let eight = self.is(Variant::AppliesEight);
        let was_held = self.desks[i].held & bit(s) != 0;
        let e = &self.entries[s];
        let u = e.writer as usize - 1;
        let d = &mut self.desks[i];
        d.held &= !bit(s);
        d.applied = raise(&d.applied, u);
        if overtakes {
            d.applied[u] = e.vector[u];
        }
        d.cells[e.cell as usize - 1] = Cell {
            vector: if eight {
                first_eight(&e.vector)
            } else {
                e.vector
            },
            writer: e.writer,
            status: e.status,
        };
        if joins {
            d.clock = join(&d.clock, &e.vector);
        }
        if !(self.is(Variant::FreeWhenReceived) && was_held) {
            self.one_desk_less(s);
        }
    }

    /// One desk less has to apply entry s; after the last one it is free.
    #[inline]
    fn one_desk_less(&mut self, s: usize) {
        self.entries[s].left -= 1;
        if self.entries[s].left == 0 {
            self.entries[s].writer = 0;
            self.free |= bit(s);
            if self.is(Variant::FreeWhenReceived) {
                for d in self.desks.iter_mut() {
                    d.held &= !bit(s);
                }
            }
        }
    }

    fn show(&self, s: usize) -> OpenWrite {
        let e = &self.entries[s];
        let u = e.writer as usize - 1;
        let mut marks = [Mark::Missing; MAX_DESKS];
        for (mark, d) in marks.iter_mut().zip(self.desks.iter()) {
            if e.vector[u] <= d.applied[u] {
                *mark = Mark::Applied;
            } else if d.held & bit(s) != 0 {
                *mark = Mark::Held;
            }
        }
        OpenWrite {
            name: Name {
                desk: e.writer,
                number: e.vector[u],
            },
            cell: e.cell,
            status: e.status,
            vector: e.vector,
            marks,
        }
    }

    #[cfg(test)]
    #[inline]
    fn is(&self, variant: Variant) -> bool {
        self.variant == Some(variant)
    }

    #[cfg(not(test))]
    #[inline(always)]
    fn is(&self, _: Variant) -> bool {
        false
    }
}

impl PartialEq for Table {
    fn eq(&self, other: &Table) -> bool {
        self.n == other.n
            && self.m == other.m
            && self.open_count() == other.open_count()
            && self
                .desks
                .iter()
                .zip(other.desks.iter())
                .all(|(a, b)| a.applied == b.applied && a.clock == b.clock && a.cells == b.cells)
            && self.open_writes().eq(other.open_writes())
    }
}

impl Eq for Table {}

impl fmt::Debug for Table {
    fn fmt(&self, f: &mut fmt::Formatter<'_>) -> fmt::Result {
        let n = self.n as usize;
        let mut out = f.debug_struct("Table");
        out.field("n", &self.n).field("m", &self.m);
        for (i, d) in self.desks.iter().enumerate() {
            let set: Vec<_> = (d.cells.iter().zip(1u8..))
                .filter_map(|(c, x)| c.reading().map(|r| (x, r, &c.vector[..n])))
                .collect();
            out.field("desk", &(i + 1));
            out.field("applied", &&d.applied[..n]);
            out.field("clock", &&d.clock[..n]);
            out.field("cells", &set);
        }
        out.field("open", &self.open_writes().collect::<Vec<_>>());
        out.finish()
    }
}
