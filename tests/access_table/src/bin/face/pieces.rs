//! A schedule in pieces, the table's image carried from call to call.

use crate::calls::{Call, Expect, Held};
use crate::counts::Counts;
use crate::findings::{self, Inspect};
use evidence::gen::Rng;
use evidence::table::{Mark, Table};
use evidence::text::{replay, Reader, Session, MAX_INPUT};
use evidence::{causal, image};

/// How many bytes of schedule are run to find a shorter one: many times the
/// longest one.
const TRIED: usize = 8_000_000;

/// How many lines of a piece are shown.
const SHOWN: usize = 100;

/// A schedule in pieces, from an image (empty: no table yet) that the
/// independent implementation accepts.
#[derive(Clone, Debug, PartialEq, Eq)]
pub struct Case {
    pub start: Vec<u8>,
    pub pieces: Vec<Vec<u8>>,
}

impl Case {
    /// The schedule, cut at random line ends into at most so many pieces. Some
    /// may be empty.
    pub fn cut(start: Vec<u8>, text: &[u8], most: usize, rng: &mut Rng) -> Case {
        let ends: Vec<usize> = (0..=text.len())
            .filter(|&at| at == 0 || text[at - 1] == b'\n')
            .collect();
        let mut cuts: Vec<usize> = (1..rng.range(1, most)).map(|_| *rng.pick(&ends)).collect();
        cuts.extend([0, text.len()]);
        cuts.sort_unstable();
        let pieces = cuts.windows(2).map(|c| text[c[0]..c[1]].to_vec());
        let pieces = pieces.collect();
        Case { start, pieces }
    }

    /// A shorter schedule with a fault, if this one has a fault: lines, cuts
    /// and writes with all their deliveries are left out as long as there is
    /// one, until [`TRIED`] bytes have been run for it.
    pub fn shortest(&self, fault: &dyn Fn(&Case) -> Option<String>) -> Case {
        let mut tried = 0;
        let mut fails = |case: &Case| {
            tried += case.bytes() + 512;
            (tried <= TRIED).then(|| fault(case).is_some())
        };
        let mut short = self.clone();
        loop {
            let with = |items: &[Item]| Case {
                start: self.start.clone(),
                pieces: pieces(items),
            };
            let items = shrink(items(&short.pieces), &mut |items| fails(&with(items)));
            short = with(&items);
            let fewer = short.writes().into_iter().rev().find_map(|write| {
                let fewer = short.without(write);
                fails(&fewer)?.then_some(fewer)
            });
            match fewer {
                Some(fewer) => short = fewer,
                None => return short,
            }
        }
    }

    /// The accepted writes: the line, counted over all pieces, and the name.
    fn writes(&self) -> Vec<(usize, String)> {
        let mut session = session_of(&self.start);
        let mut writes = Vec::new();
        let mut line = 0;
        for piece in &self.pieces {
            let expect = expected(&mut session, piece);
            if let Expect::Done { answers, .. } = expect {
                let text = String::from_utf8_lossy(&answers);
                let names = text.lines().map(|answer| answer.strip_prefix("W "));
                writes.extend(
                    (line..)
                        .zip(names)
                        .filter_map(|(at, n)| Some((at, n?.into()))),
                );
            }
            line += piece.split_inclusive(|&b| b == b'\n').count();
        }
        writes
    }

    /// The case without a write and its deliveries; the writes of that desk
    /// behind it are called by the numbers that they then have.
    fn without(&self, (write, name): (usize, String)) -> Case {
        let (u, k) = name.split_once('.').unwrap_or_default();
        let renamed = |line: &[u8]| -> Option<Vec<u8>> {
            let text = String::from_utf8_lossy(line);
            let fields: Vec<&str> = text.trim_end_matches('\n').split(' ').collect();
            let &["D", desk, writer, number] = &fields[..] else {
                return Some(line.to_vec());
            };
            let (number, k): (u32, u32) = (number.parse().ok()?, k.parse().ok()?);
            if writer != u || number < k {
                return Some(line.to_vec());
            }
            (number > k).then(|| format!("D {desk} {u} {}\n", number - 1).into_bytes())
        };
        let mut at = 0;
        let mut pieces = Vec::new();
        for piece in &self.pieces {
            let mut kept = Vec::new();
            for line in piece.split_inclusive(|&b| b == b'\n') {
                if at != write {
                    kept.extend(renamed(line).unwrap_or_default());
                }
                at += 1;
            }
            pieces.push(kept);
        }
        let start = self.start.clone();
        Case { start, pieces }
    }

    /// The length of the schedule.
    fn bytes(&self) -> usize {
        self.pieces.iter().map(Vec::len).sum()
    }

    /// The pieces, to be read.
    pub fn show(&self) -> String {
        let mut out = String::new();
        for (at, piece) in self.pieces.iter().enumerate() {
            let from = match (at, self.start.len()) {
                (0, 0) => "with no image".to_string(),
                (0, _) => "from that image".to_string(),
                _ => format!("from the image that call {at} gave"),
            };
            out += &format!("call {}, {from}, {} bytes:\n", at + 1, piece.len());
            out += &show_lines(piece);
        }
        out
    }
}

/// The lines of a text, to be read; the first hundred of them.
fn show_lines(text: &[u8]) -> String {
    let mut out = String::new();
    let lines = text.split_inclusive(|&b| b == b'\n');
    for line in lines.clone().take(SHOWN) {
        let bytes = line.strip_suffix(b"\n").unwrap_or(line).escape_ascii();
        let end = if line.ends_with(b"\n") {
            ""
        } else {
            "  (no LF)"
        };
        out += &format!("    {bytes}{end}\n");
    }
    match lines.count() {
        count if count > SHOWN => out + &format!("    and {} lines more\n", count - SHOWN),
        _ => out,
    }
}

/// How far the calls of a case are held.
#[derive(Clone, Copy, Debug, PartialEq, Eq)]
pub enum Depth {
    /// Every piece with room to the byte.
    Plain,
    /// One piece with every sort of buffer besides.
    One(usize),
    /// Every piece with every sort of buffer.
    All,
}

/// Runs a case through the call, and holds every piece, what is found in the
/// image behind it, the answers of all pieces together, and their causal order.
pub fn hold(
    call: Call,
    inspect: Inspect,
    case: &Case,
    depth: Depth,
    counts: &mut Counts,
) -> Result<(), String> {
    let mut session = session_of(&case.start);
    let mut carried = case.start.clone();
    let (mut ran, mut answered) = (Vec::new(), Vec::new());
    for (at, piece) in case.pieces.iter().enumerate() {
        let before = session.table().cloned();
        let expect = expected(&mut session, piece);
        let held = Held {
            call,
            image: &carried,
            schedule: piece,
            expect: &expect,
        };
        let done = if depth == Depth::All || depth == Depth::One(at) {
            held.thorough(&mut counts.calls)
        } else {
            held.plain(&mut counts.calls)
        };
        done.map_err(|fault| format!("piece {}: {fault}", at + 1))?;
        count_piece(piece, at, before.as_ref(), session.table(), counts);
        // What the call gave was just found to be this.
        if let Expect::Done { answers, image } = expect {
            counts.answers(&answers)?;
            ran.extend_from_slice(piece);
            answered.extend(answers);
            carried = image;
            findings::hold(inspect, &carried, &mut counts.findings)
                .map_err(|fault| format!("behind piece {}: {fault}", at + 1))?;
        }
    }
    if case.start.is_empty() {
        counts.many += usize::from(session.table().is_some_and(many));
        whole(&ran, &answered, counts)?;
    }
    Ok(())
}

/// The session that goes on from an image.
fn session_of(start: &[u8]) -> Session {
    if start.is_empty() {
        return Session::new();
    }
    let table = image::load(start).expect("a case starts from a good image");
    Session::with_table(table)
}

/// What a call on this piece has to give, by the independent implementation.
pub fn expected(session: &mut Session, piece: &[u8]) -> Expect {
    if piece.len() > MAX_INPUT {
        return Expect::Refused(14);
    }
    let mut answers = Vec::new();
    for line in Reader::new(piece) {
        session.answer(line, &mut answers);
    }
    let image = session.table().map(image_of).unwrap_or_default();
    Expect::Done { answers, image }
}

/// The image of a table that steps or a load gave.
pub fn image_of(table: &Table) -> Vec<u8> {
    image::to_vec(table).expect("a table that steps or a load gave keeps the rules")
}

/// All that ran, from no table: as `replay` has it, and in causal order.
fn whole(ran: &[u8], answered: &[u8], counts: &mut Counts) -> Result<(), String> {
    if ran.len() <= MAX_INPUT && replay(ran) != answered {
        return Err("the answers together are not those to the whole schedule".into());
    }
    let report = causal::check(ran, answered).map_err(|fault| format!("causal order: {fault}"))?;
    counts.causal += 1;
    counts.holds += report.holds;
    Ok(())
}

fn count_piece(
    piece: &[u8],
    at: usize,
    before: Option<&Table>,
    after: Option<&Table>,
    counts: &mut Counts,
) {
    counts.pieces += 1;
    match piece.len() {
        MAX_INPUT => counts.longest += 1,
        over if over == MAX_INPUT + 1 => counts.one_over += 1,
        over if over > MAX_INPUT => counts.over += 1,
        _ => {}
    }
    let Some(before) = before else {
        counts.from_nothing += 1;
        return;
    };
    counts.from_image += 1;
    if at == 0 || piece.is_empty() {
        return;
    }
    let full = before.open_count() == 64;
    counts.full_carried += usize::from(full);
    counts.many_carried += usize::from(many(before));
    counts.many_full += usize::from(full && many(before));
    let held = held_writes(before);
    counts.held_carried += usize::from(!held.is_empty());
    let applied = |(desk, writer, number): &(u16, u8, u16)| {
        let counts = after.and_then(|t| t.applied(*desk).ok());
        counts.is_some_and(|c| c[usize::from(*writer) - 1] >= *number)
    };
    counts.released += held.iter().filter(|h| applied(h)).count();
}

/// Whether a table is one of edition 2.
fn many(table: &Table) -> bool {
    table.desks() > 8
}

/// The held writes of a table: desk, writer, number.
fn held_writes(table: &Table) -> Vec<(u16, u8, u16)> {
    let mut held = Vec::new();
    for write in table.open_writes() {
        for (desk, mark) in (1..).zip(write.marks) {
            if mark == Mark::Held {
                held.push((desk, write.name.desk, write.name.number));
            }
        }
    }
    held
}

/// A line, or a cut between two pieces.
#[derive(Clone, Debug)]
enum Item {
    Line(Vec<u8>),
    Cut,
}

fn items(pieces: &[Vec<u8>]) -> Vec<Item> {
    let mut items = Vec::new();
    for (at, piece) in pieces.iter().enumerate() {
        if at > 0 {
            items.push(Item::Cut);
        }
        let lines = piece.split_inclusive(|&b| b == b'\n');
        items.extend(lines.map(|line| Item::Line(line.to_vec())));
    }
    items
}

fn pieces(items: &[Item]) -> Vec<Vec<u8>> {
    let mut pieces = vec![Vec::new()];
    for item in items {
        match item {
            Item::Cut => pieces.push(Vec::new()),
            Item::Line(line) => pieces.last_mut().expect("one at least").extend(line),
        }
    }
    pieces
}

/// Leaves out parts of a list, halves first and then single items, as long as
/// it still fails; `None` ends the search.
pub fn shrink<T: Clone>(mut list: Vec<T>, fails: &mut dyn FnMut(&[T]) -> Option<bool>) -> Vec<T> {
    let mut size = list.len().div_ceil(2);
    while size > 0 {
        let before = list.len();
        let mut at = 0;
        while at < list.len() {
            let mut fewer = list.clone();
            fewer.drain(at..(at + size).min(list.len()));
            match fails(&fewer) {
                Some(true) => list = fewer,
                Some(false) => at += size,
                None => return list,
            }
        }
        // Once more with single items, as long as one went.
        if size > 1 || list.len() == before {
            size /= 2;
        }
    }
    list
}
