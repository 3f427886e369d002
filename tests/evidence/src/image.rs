//! The saved image: blocks of 512 bytes, kinds 1 to 4, in two editions.
//!
//! An edition is the number of places that its vectors have: 8 in edition 1, for
//! tables of up to 8 desks, and 16 in edition 2. The codec is one, over that number.

use crate::table::{Cell, Entry, Mark, Table, Vector, MAX_CELLS, MAX_DESKS, MAX_OPEN};
use crate::Refusal;
use std::fmt;

/// The length of a block, its check included.
pub const BLOCK: usize = 512;
/// Where the payload begins.
pub const PAYLOAD: usize = 4;
/// Where the check begins, and the payload ends.
pub const CHECK: usize = 508;
/// The most blocks an image can have.
pub const MAX_BLOCKS: usize = 105;

/// An edition: its number, and what it makes of blocks.
#[derive(Clone, Copy, Debug, PartialEq, Eq)]
pub struct Edition {
    /// Byte 1 of every block.
    pub number: u8,
    /// The places of a vector, and the marks of an open write.
    pub places: usize,
    /// The bytes of a cell.
    pub cell_bytes: usize,
    /// How many cells a block of kind 3 holds.
    pub cells_per_block: usize,
    /// The bytes of an open write.
    pub open_bytes: usize,
    /// How many open writes a block of kind 4 holds.
    pub open_per_block: usize,
}

impl Edition {
    /// For tables of up to 8 desks.
    pub const ONE: Edition = Edition::over(1, 8);
    /// For tables of 9 to 16 desks.
    pub const TWO: Edition = Edition::over(2, 16);

    const fn over(number: u8, places: usize) -> Edition {
        let (cell_bytes, open_bytes) = (4 + 2 * places, 4 + 3 * places);
        Edition {
            number,
            places,
            cell_bytes,
            cells_per_block: (CHECK - PAYLOAD) / cell_bytes,
            open_bytes,
            open_per_block: (CHECK - PAYLOAD) / open_bytes,
        }
    }

    /// The edition of a table of n desks.
    pub const fn of(n: usize) -> Edition {
        if n <= Edition::ONE.places {
            Edition::ONE
        } else {
            Edition::TWO
        }
    }

    /// Where the clock begins in a desk's payload, behind its counts.
    pub const fn clock(&self) -> usize {
        4 + 2 * self.places
    }

    /// Where the marks of an open write begin, behind its vector.
    pub const fn marks(&self) -> usize {
        4 + 2 * self.places
    }

    /// The blocks of an image of a table with these numbers.
    pub const fn blocks(&self, n: usize, m: usize, open: usize) -> usize {
        1 + n + n * m.div_ceil(self.cells_per_block) + open.div_ceil(self.open_per_block)
    }
}

/// The check of a block: 1 plus the sum of (j+1) times byte j, j from 0 to
/// 507. Bytes past 507 do not count.
pub fn check_of(block: &[u8]) -> u32 {
    let sum: u32 = (block.iter().take(CHECK).zip(1u32..))
        .map(|(&byte, weight)| weight * u32::from(byte))
        .sum();
    1 + sum
}

/// The blocks of an image of a table with these numbers.
pub fn block_count(n: usize, m: usize, open: usize) -> usize {
    Edition::of(n).blocks(n, m, open)
}

/// The length in bytes of a table's image.
pub fn image_len(table: &Table) -> usize {
    BLOCK * block_count(table.n.into(), table.m.into(), table.open_count())
}

/// Saves a table into the front of a lent buffer and returns the image's
/// length; bytes past it stay. Refusals in order: 13 (no table that the steps
/// or [`load`] gave is refused so), 14. A refusal leaves the buffer.
pub fn save(table: &Table, buffer: &mut [u8]) -> Result<usize, Refusal> {
    if !keeps_rules(table) {
        return Err(Refusal::RuleBroken);
    }
    let length = image_len(table);
    let Some(image) = buffer.get_mut(..length) else {
        return Err(Refusal::Length);
    };
    match Edition::of(table.n.into()) {
        Edition::ONE => put::<8>(table, image),
        _ => put::<16>(table, image),
    }
    Ok(length)
}

/// Writes a table into an image of its length, with vectors of P places.
fn put<const P: usize>(table: &Table, image: &mut [u8]) {
    let edition = const { Edition::of(P) };
    let m = table.m as usize;
    let mut blocks = BlockWriter {
        image,
        edition: edition.number,
        place: 0,
    };

    blocks.put(1, |p| {
        p[0] = table.n;
        p[1] = table.m;
        p[2] = table.open_count() as u8;
    });
    for (d, number) in table.desks.iter().zip(1..) {
        blocks.put(2, |p| {
            p[0] = number;
            put_vector::<P>(&mut p[4..], &d.applied);
            put_vector::<P>(&mut p[edition.clock()..], &d.clock);
        });
    }
    for d in &table.desks {
        for group in d.cells[..m].chunks(edition.cells_per_block) {
            blocks.put(3, |p| {
                for (cell, p) in group.iter().zip(p.chunks_mut(edition.cell_bytes)) {
                    p[0] = cell.writer;
                    p[1] = cell.status;
                    put_vector::<P>(&mut p[4..], &cell.vector);
                }
            });
        }
    }
    let mut open = table.open_writes().peekable();
    while open.peek().is_some() {
        blocks.put(4, |p| {
            // The places come first: a write is taken only where one is left.
            for (p, write) in p.chunks_exact_mut(edition.open_bytes).zip(open.by_ref()) {
                p[0] = write.name.desk;
                p[1] = write.status;
                p[2] = write.cell;
                put_vector::<P>(&mut p[4..], &write.vector);
                for (byte, mark) in p[edition.marks()..].iter_mut().zip(write.marks) {
                    *byte = match mark {
                        Mark::Missing => 0,
                        Mark::Held => 1,
                        Mark::Applied => 2,
                    };
                }
            }
        });
    }
}

/// Saves a table into a buffer of its own. Refusal: 13, as in [`save`].
pub fn to_vec(table: &Table) -> Result<Vec<u8>, Refusal> {
    let mut buffer = vec![0; image_len(table)];
    save(table, &mut buffer)?;
    Ok(buffer)
}

/// What is wrong with an image, and where. Blocks count from 0.
#[derive(Clone, Copy, Debug, PartialEq, Eq, PartialOrd, Ord, Hash)]
pub enum Fault {
    /// 15: the length is not a nonzero multiple of 512. It has no place.
    WrongLength,
    /// 12: the check of this block is wrong, and every one before it is right.
    Check(usize),
    /// 13: this block is the first whose place, edition or kind cannot stand
    /// there; or there is none, only other rules break, and this is the count
    /// of blocks.
    Rule(usize),
}

impl Fault {
    /// The refusal that it is.
    pub const fn refusal(self) -> Refusal {
        match self {
            Fault::WrongLength => Refusal::ImageLength,
            Fault::Check(_) => Refusal::ImageDamaged,
            Fault::Rule(_) => Refusal::RuleBroken,
        }
    }

    /// Its place, if it has one.
    pub const fn place(self) -> Option<usize> {
        match self {
            Fault::WrongLength => None,
            Fault::Check(place) | Fault::Rule(place) => Some(place),
        }
    }
}

impl fmt::Display for Fault {
    fn fmt(&self, f: &mut fmt::Formatter<'_>) -> fmt::Result {
        match self.place() {
            None => write!(f, "{}", self.refusal()),
            Some(place) => write!(f, "{} (place {place})", self.refusal()),
        }
    }
}

impl std::error::Error for Fault {}

impl From<Fault> for Refusal {
    fn from(fault: Fault) -> Refusal {
        fault.refusal()
    }
}

/// Loads an image. Refusals in order: 15, 12, 13, all checks before any 13. An
/// image is accepted exactly if it is, byte for byte, the image of a table that
/// keeps the rules.
pub fn load(image: &[u8]) -> Result<Table, Fault> {
    let blocks = image.chunks_exact(BLOCK);
    if image.is_empty() || !blocks.remainder().is_empty() {
        return Err(Fault::WrongLength);
    }
    let count = blocks.len();
    let wrong = |block: &[u8]| block[CHECK..] != check_of(block).to_le_bytes();
    if let Some(place) = blocks.clone().position(wrong) {
        return Err(Fault::Check(place));
    }
    let mut placed = blocks.enumerate();
    if let Some(place) = placed.position(|(place, block)| !stands(block, place)) {
        return Err(Fault::Rule(place));
    }
    // Byte 4 of the first block is n.
    let table = match Edition::of(image[PAYLOAD].into()) {
        Edition::ONE => parse::<8>(image),
        _ => parse::<16>(image),
    };
    table.ok_or(Fault::Rule(count))
}

/// Whether a block's place, edition and kind can stand at a place. Either edition
/// can; what the other blocks are is not asked.
fn stands(block: &[u8], place: usize) -> bool {
    let kind_fits = match block[0] {
        1 => place == 0,
        2..=4 => place > 0,
        _ => false,
    };
    kind_fits
        && (block[1] == Edition::ONE.number || block[1] == Edition::TWO.number)
        && usize::from(u16::from_le_bytes([block[2], block[3]])) == place
}

/// Whether a table keeps the rules of document 01. Every table that the steps
/// or [`load`] gave does.
pub fn keeps_rules(table: &Table) -> bool {
    let n = table.n as usize;
    let m = table.m as usize;
    if !(1..=MAX_DESKS).contains(&n) || !(1..=MAX_CELLS).contains(&m) {
        return false;
    }
    if table.desks.len() != n {
        return false;
    }
    let mut own: Vector = [0; MAX_DESKS];
    for (u, d) in table.desks.iter().enumerate() {
        own[u] = d.applied[u];
    }
    let fresh = |cell: &Cell| *cell == Cell::UNSET;
    let desks_good = table.desks.iter().enumerate().all(|(i, d)| {
        at_most(&d.applied, &own)
            && at_most(&d.clock, &d.applied)
            && d.clock[i] == d.applied[i]
            && d.cells[..m].iter().all(|c| cell_good(c, &d.applied, n))
            && d.cells[m..].iter().all(fresh)
    });
    desks_good && open_good(table, &own)
}

/// Whether the open list is exact and every open write keeps its rules.
fn open_good(table: &Table, own: &Vector) -> bool {
    let n = table.n as usize;
    let mut found = 0;
    let mut entries = 0u64;
    for u in 0..n {
        let (low, top) = table.open_range(u);
        if top - low > MAX_OPEN as u32 {
            return false;
        }
        for k in low + 1..=top {
            let Some(s) = table.find(u, k as u16) else {
                return false;
            };
            found += 1;
            entries |= 1 << s;
            let e = &table.entries[s];
            let good = e.status <= 2
                && (1..=table.m).contains(&e.cell)
                && at_most(&e.vector, own)
                && table.desks.iter().enumerate().all(|(i, d)| {
                    let held = d.held >> s & 1 == 1;
                    if k <= d.applied[u].into() {
                        !held && at_most(&e.vector, &d.applied)
                    } else {
                        !held || table.first_missing(i, s).is_some()
                    }
                });
            if !good {
                return false;
            }
        }
    }
    let held = table.desks.iter().fold(0, |all, d| all | d.held);
    found == table.open_count() && held & !entries == 0
}

/// Whether a cell keeps its rules at a desk with these counts.
fn cell_good(cell: &Cell, applied: &Vector, n: usize) -> bool {
    if cell.writer == 0 {
        return *cell == Cell::UNSET;
    }
    let writer = cell.writer as usize;
    // Counts past n are zero, so the vector's places past n are too.
    writer <= n
        && cell.status <= 2
        && cell.vector[writer - 1] >= 1
        && at_most(&cell.vector, applied)
}

fn at_most(a: &Vector, b: &Vector) -> bool {
    // Without a way out in between: all places at once.
    (a.iter().zip(b)).fold(0, |over, (x, y)| over | x.saturating_sub(*y)) == 0
}

/// Takes an image with good checks apart, whose vectors have P places; `None` if it
/// breaks a rule.
fn parse<const P: usize>(image: &[u8]) -> Option<Table> {
    let edition = const { Edition::of(P) };
    let mut blocks = BlockReader {
        image,
        edition: edition.number,
        place: 0,
    };

    let mut head = blocks.take(1)?;
    let (n, m, open) = (head.byte(), head.byte(), head.byte());
    head.zero_to_end()?;
    let mut table = Table::new(n.into(), m.into()).ok()?;
    let (n, m, open) = (n as usize, m as usize, open as usize);
    if open > MAX_OPEN || image.len() != BLOCK * edition.blocks(n, m, open) {
        return None;
    }
    for i in 0..n {
        let mut p = blocks.take(2)?;
        if p.byte() as usize != i + 1 {
            return None;
        }
        p.zero(3)?;
        table.desks[i].applied = p.vector::<P>();
        table.desks[i].clock = p.vector::<P>();
        p.zero_to_end()?;
    }
    for i in 0..n {
        for group in table.desks[i].cells[..m].chunks_mut(edition.cells_per_block) {
            let mut p = blocks.take(3)?;
            for cell in group {
                cell.writer = p.byte();
                cell.status = p.byte();
                p.zero(2)?;
                cell.vector = p.vector::<P>();
            }
            p.zero_to_end()?;
        }
    }
    // The list has to be this one, in this order.
    let mut listed = Vec::with_capacity(MAX_OPEN);
    for u in 0..n {
        let (low, own) = table.open_range(u);
        if listed.len() + (own - low) as usize > open {
            return None;
        }
        listed.extend((low + 1..=own).map(|k| (u, k as u16)));
    }
    if listed.len() != open {
        return None;
    }
    for group in listed.chunks(edition.open_per_block) {
        let mut p = blocks.take(4)?;
        for &(u, number) in group {
            let writer = p.byte();
            let status = p.byte();
            let cell = p.byte();
            p.zero(1)?;
            let vector = p.vector::<P>();
            if writer as usize != u + 1 || vector[u] != number {
                return None;
            }
            let mut marks = [0; P];
            for mark in &mut marks {
                *mark = p.byte();
            }
            let left = marks[..n].iter().filter(|&&mark| mark != 2).count() as u8;
            let s = table.open(Entry {
                vector,
                writer,
                status,
                cell,
                left,
            });
            if marks[n..].iter().any(|&mark| mark != 0) {
                return None;
            }
            for (d, &mark) in table.desks.iter_mut().zip(&marks) {
                if mark > 2 || (mark == 2) != (number <= d.applied[u]) {
                    return None;
                }
                if mark == 1 {
                    d.held |= 1 << s;
                }
            }
        }
        p.zero_to_end()?;
    }
    keeps_rules(&table).then_some(table)
}

fn put_vector<const P: usize>(p: &mut [u8], vector: &Vector) {
    for (bytes, place) in p.chunks_exact_mut(2).zip(&vector[..P]) {
        bytes.copy_from_slice(&place.to_le_bytes());
    }
}

/// Writes blocks one behind the other into a buffer of the right length.
struct BlockWriter<'a> {
    image: &'a mut [u8],
    edition: u8,
    place: usize,
}

impl BlockWriter<'_> {
    fn put(&mut self, kind: u8, fill: impl FnOnce(&mut [u8])) {
        let mut block = [0; BLOCK];
        block[0] = kind;
        block[1] = self.edition;
        block[2..PAYLOAD].copy_from_slice(&(self.place as u16).to_le_bytes());
        fill(&mut block[PAYLOAD..CHECK]);
        let check = check_of(&block);
        block[CHECK..].copy_from_slice(&check.to_le_bytes());
        self.image[self.place * BLOCK..][..BLOCK].copy_from_slice(&block);
        self.place += 1;
    }
}

/// Hands out the payloads of the blocks in order.
struct BlockReader<'a> {
    image: &'a [u8],
    edition: u8,
    place: usize,
}

impl<'a> BlockReader<'a> {
    /// The payload of the next block, if its head is the expected one.
    fn take(&mut self, kind: u8) -> Option<Payload<'a>> {
        let block = self.image.chunks_exact(BLOCK).nth(self.place)?;
        let place = u16::from_le_bytes([block[2], block[3]]);
        if block[0] != kind || block[1] != self.edition || usize::from(place) != self.place {
            return None;
        }
        self.place += 1;
        Some(Payload(&block[PAYLOAD..CHECK]))
    }
}

/// What is left of a payload. No block is read past its end.
struct Payload<'a>(&'a [u8]);

impl Payload<'_> {
    fn byte(&mut self) -> u8 {
        let (byte, rest) = self.0.split_at(1);
        self.0 = rest;
        byte[0]
    }

    /// A vector of P places; the others are zero.
    fn vector<const P: usize>(&mut self) -> Vector {
        let mut vector = [0; MAX_DESKS];
        for place in &mut vector[..P] {
            *place = u16::from_le_bytes([self.byte(), self.byte()]);
        }
        vector
    }

    fn zero(&mut self, count: usize) -> Option<()> {
        (0..count).all(|_| self.byte() == 0).then_some(())
    }

    fn zero_to_end(&mut self) -> Option<()> {
        self.zero(self.0.len())
    }
}
