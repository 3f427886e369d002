//! A checker of causal order, by its definition and without vectors.
//!
//! [`check`] takes a schedule and the answers that some implementation gave to
//! it. From the accepted lines it builds, for each desk, the list of what
//! happened there: writes applied and own reads, in order. It builds the
//! causal order as a closure over single operations: an earlier operation of
//! the same desk comes before a later one, a write comes before each read that
//! shows it, and what follows by chaining. Then, after every step, it demands:
//!
//! 1. each read shows the latest earlier write to its cell in that desk's
//!    list, or unset if there is none;
//! 2. every write that comes before an entry of a list, and every own read of
//!    that desk that does, stands earlier in the list;
//! 3. a write received at a desk is held there exactly if some write that
//!    comes before it is unapplied there.
//!
//! A trip's answer is its verdict alone; what its reads show is taken from the
//! list, each is a read of its own, and the verdict has to agree.
//!
//! Two more facts of the documents can be said in the same words and are tested
//! too: the order of the writes in `A`, and the write t.j that `H` names where
//! u.k was delivered. Of t.j it demands:
//!
//! 1. it is an accepted write;
//! 2. it comes before u.k;
//! 3. it is not in that desk's list;
//! 4. every earlier write of t is;
//! 5. every write of a smaller desk that comes before u.k is.
//!
//! And once t.j has been applied there, no `H` there names it again.
//!
//! Refusals are taken as they come: a refused line did nothing. Whether it had
//! to be refused is for the comparison of answers, not for this checker.

use std::fmt;
use std::ops::AddAssign;

/// An accepted operation, by its place in the run.
type Op = usize;

/// What a run that passed consisted of, so that a test can see that it was
/// not an empty one.
#[derive(Clone, Copy, Debug, Default, PartialEq, Eq)]
pub struct Report {
    /// Lines of the schedule.
    pub lines: usize,
    /// Refused lines.
    pub refused: usize,
    /// Accepted read steps.
    pub reads: usize,
    /// Reads, single or in trips, that showed a write.
    pub shown: usize,
    /// Accepted trips.
    pub trips: usize,
    /// Accepted writes.
    pub writes: usize,
    /// Deliveries answered by `A`.
    pub applied: usize,
    /// Deliveries answered by `H`.
    pub held: usize,
    /// Writes applied after having been held.
    pub released: usize,
    /// The longest `A` answer, in names.
    pub longest: usize,
    /// Writes left held at some desk at the end, counted for each desk.
    pub left_held: usize,
    /// What the `H` answers name.
    pub holds: Holds,
}

/// `H t.j` answers to deliveries of u.k, by what they name.
#[derive(Clone, Copy, Debug, Default, PartialEq, Eq)]
pub struct Holds {
    /// j is above 1.
    pub later: usize,
    /// t is u.
    pub writer: usize,
    /// t is not u.
    pub other: usize,
    /// t is not u, and a later write of t comes before u.k too: the place of t
    /// in the vector of u.k is above j.
    pub further: usize,
    /// A larger desk has a write that comes before u.k and is missing too.
    pub several: usize,
    /// t.j is itself held there.
    pub held: usize,
    /// t has two digits.
    pub digits: usize,
}

impl Holds {
    /// Each class in words, and its count.
    pub fn classes(&self) -> [(&'static str, usize); 7] {
        [
            ("j above 1", self.later),
            ("t the writer", self.writer),
            ("t another desk", self.other),
            ("t another desk and its vector place above j", self.further),
            ("a larger desk failing too", self.several),
            ("t.j itself held there", self.held),
            ("t of two digits", self.digits),
        ]
    }

    /// The classes with fewer than so many.
    pub fn rare(&self, least: usize) -> Vec<&'static str> {
        let few = self.classes().into_iter().filter(|c| c.1 < least);
        few.map(|c| c.0).collect()
    }
}

impl AddAssign for Holds {
    fn add_assign(&mut self, more: Holds) {
        self.later += more.later;
        self.writer += more.writer;
        self.other += more.other;
        self.further += more.further;
        self.several += more.several;
        self.held += more.held;
        self.digits += more.digits;
    }
}

impl fmt::Display for Holds {
    fn fmt(&self, f: &mut fmt::Formatter<'_>) -> fmt::Result {
        let classes = self
            .classes()
            .map(|(class, count)| format!("{class} in {count}"));
        let all = self.writer + self.other;
        write!(f, "{all} held answers H t.j: {}", classes.join("; "))
    }
}

/// Why and where a run was rejected.
#[derive(Clone, Copy, Debug, PartialEq, Eq)]
pub struct Fault {
    /// The line, from 1.
    pub line: usize,
    /// What is wrong there.
    pub kind: FaultKind,
}

/// What a run was rejected for.
#[derive(Clone, Copy, Debug, PartialEq, Eq, Hash)]
pub enum FaultKind {
    /// There are not as many answers as lines.
    LineCount,
    /// The answer is no answer to its line.
    Answer,
    /// A write has another name than the next one of its desk.
    WriteName,
    /// A write was delivered that was not accepted before.
    UnknownWrite,
    /// A delivery was accepted of a write that the desk had received.
    ReceivedTwice,
    /// `A` does not begin with the delivered write, or goes on with a write
    /// that is not held there.
    NotReceived,
    /// Demand 1: a read shows something else than the latest write.
    Read,
    /// Demand 1, for a trip: the verdict does not fit what its reads show.
    Verdict,
    /// Demand 2: a write comes before an entry and does not stand earlier. For
    /// a write as entry this is the other half of demand 3: it is applied, and
    /// one that comes before it is not.
    WriteNotEarlier,
    /// Demand 2: an own read comes before an entry and does not stand earlier.
    ReadNotEarlier,
    /// Demand 3: a write is held that waits for nothing.
    HeldForNothing,
    /// `H` names a write that was not accepted.
    HoldUnknown,
    /// `H` names a write that does not come before the delivered one.
    HoldNotBefore,
    /// `H` names a write that is applied there.
    HoldApplied,
    /// `H` names a write, and an earlier one of its desk is not applied there.
    HoldNotFirst,
    /// `H` names a write, and one of a smaller desk is missing.
    HoldDesk,
    /// `H` names a write that it had named there, and that has been applied
    /// there since.
    HoldAgain,
    /// `A` does not take the smallest writer next.
    CascadeOrder,
}

impl fmt::Display for Fault {
    fn fmt(&self, f: &mut fmt::Formatter<'_>) -> fmt::Result {
        write!(f, "line {}: {:?}", self.line, self.kind)
    }
}

impl std::error::Error for Fault {}

/// Checks the answers to a schedule; see the module's head.
pub fn check(schedule: &[u8], answers: &[u8]) -> Result<Report, Fault> {
    let mut run = Run::default();
    let mut report = Report::default();
    if schedule.len() > crate::text::MAX_INPUT && answers == b"E 14\n" {
        return Ok(report);
    }
    let lines = split(schedule);
    let answers = split(answers);
    for (at, line) in lines.iter().enumerate() {
        let fault = |kind| Fault { line: at + 1, kind };
        let answer = answers.get(at).ok_or(fault(FaultKind::LineCount))?;
        report.lines += 1;
        run.step(line, answer, &mut report).map_err(fault)?;
    }
    if answers.len() != lines.len() {
        return Err(Fault {
            line: lines.len() + 1,
            kind: FaultKind::LineCount,
        });
    }
    report.left_held = run.desks.iter().map(|d| d.held.len()).sum();
    Ok(report)
}

/// The lines of a text; a last one without LF is one too.
fn split(text: &[u8]) -> Vec<&[u8]> {
    let mut lines: Vec<&[u8]> = text.split(|&b| b == b'\n').collect();
    if lines.last().is_some_and(|last| last.is_empty()) {
        lines.pop();
    }
    lines
}

/// A growing set of operations.
#[derive(Clone, Debug, Default)]
struct Set(Vec<u64>);

impl Set {
    fn add(&mut self, op: Op) {
        if self.0.len() <= op / 64 {
            self.0.resize(op / 64 + 1, 0);
        }
        self.0[op / 64] |= 1 << (op % 64);
    }

    fn has(&self, op: Op) -> bool {
        self.word(op / 64) >> (op % 64) & 1 == 1
    }

    fn word(&self, at: usize) -> u64 {
        self.0.get(at).copied().unwrap_or(0)
    }

    fn add_all(&mut self, other: &Set) {
        if self.0.len() < other.0.len() {
            self.0.resize(other.0.len(), 0);
        }
        for (word, more) in self.0.iter_mut().zip(&other.0) {
            *word |= more;
        }
    }

    /// Whether some member of this set is in `among` and not in `without`.
    fn any(&self, among: &Set, without: &Set) -> bool {
        (self.0.iter().enumerate()).any(|(at, &w)| w & among.word(at) & !without.word(at) != 0)
    }

    /// The members of this set that are in `among` and not in `without`.
    fn list<'a>(&'a self, among: &'a Set, without: &'a Set) -> impl Iterator<Item = Op> + 'a {
        (0..self.0.len() * 64).filter(|&op| self.has(op) && among.has(op) && !without.has(op))
    }
}

/// An accepted write.
#[derive(Clone, Copy, Debug)]
struct Written {
    desk: usize,
    cell: usize,
    status: u8,
}

#[derive(Clone, Debug, Default)]
struct DeskRun {
    /// The writes of this desk: number k is at k-1.
    writes: Vec<Op>,
    /// Its last own read or write.
    last: Option<Op>,
    /// All its own reads.
    own_reads: Set,
    /// The operations in its list: writes applied here and own reads.
    listed: Set,
    /// The latest write to each cell in its list.
    latest: Vec<Option<Op>>,
    /// The writes received here, own ones included.
    received: Set,
    /// Those of them that are not applied.
    held: Vec<Op>,
    /// The writes that an `H` here named.
    named: Set,
    /// Those of them that were applied here later.
    settled: Set,
}

#[derive(Clone, Debug, Default)]
struct Run {
    /// All operations: the write, or `None` for a read.
    ops: Vec<Option<Written>>,
    /// For each operation, all that come before it.
    before: Vec<Set>,
    /// All writes.
    writes: Set,
    desks: Vec<DeskRun>,
}

impl Run {
    /// Takes one line and its answer in, and tests all that it could change.
    ///
    /// A step changes one desk's list, at its end, and that desk's set of
    /// received writes. What comes before an operation is settled when it is
    /// accepted. So the demands, once met, stay met for earlier entries and
    /// for the other desks, and the test after a step is of the new entries
    /// and of the held writes of this desk.
    fn step(&mut self, line: &[u8], answer: &[u8], report: &mut Report) -> Result<(), FaultKind> {
        const MISFIT: FaultKind = FaultKind::Answer;
        let answer: Vec<&[u8]> = answer.split(|&b| b == b' ').collect();
        if answer[0] == b"E" {
            report.refused += 1;
            return match answer[..] {
                [_, no] if matches!(number(no), Some(1..=14)) => Ok(()),
                _ => Err(MISFIT),
            };
        }
        let fields: Vec<&[u8]> = line.split(|&b| b == b' ').collect();
        let letter = fields[0];
        let numbers: Vec<usize> = (fields[1..].iter())
            .map(|f| number(f))
            .collect::<Option<_>>()
            .ok_or(MISFIT)?;
        if letter == b"N" {
            let ([n @ 1..=16, m @ 1..=64], [b"N"], true) =
                (&numbers[..], &answer[..], self.desks.is_empty())
            else {
                return Err(MISFIT);
            };
            let desk = DeskRun {
                latest: vec![None; m + 1],
                ..DeskRun::default()
            };
            self.desks = vec![desk; n + 1];
            return Ok(());
        }
        let i = *numbers.first().ok_or(MISFIT)?;
        if i == 0 || i >= self.desks.len() {
            return Err(MISFIT);
        }
        let cells = self.desks[0].latest.len();
        let cell_good = |x: usize| x != 0 && x < cells;
        match (letter, &numbers[1..]) {
            (b"R", &[x]) if cell_good(x) => {
                let shown = match answer[..] {
                    [b"R", b"-"] => None,
                    [b"R", status, name] => {
                        let write = self.named(name)?.ok_or(FaultKind::Read)?;
                        let written = self.ops[write].ok_or(MISFIT)?;
                        if number(status) != Some(written.status.into()) {
                            return Err(FaultKind::Read);
                        }
                        Some(write)
                    }
                    _ => return Err(MISFIT),
                };
                report.reads += 1;
                report.shown += usize::from(shown.is_some());
                self.read(i, x, shown)?;
            }
            (b"T", list @ [_, ..]) if list.iter().all(|&x| cell_good(x)) => {
                let [b"T", word] = answer[..] else {
                    return Err(MISFIT);
                };
                let mut statuses = Vec::new();
                for &x in list {
                    let shown = self.desks[i].latest[x];
                    report.shown += usize::from(shown.is_some());
                    self.read(i, x, shown)?;
                    statuses.push(shown.and_then(|w| self.ops[w]).map(|w| w.status));
                }
                let verdict: &[u8] = if statuses.contains(&Some(2)) {
                    b"no"
                } else if statuses.iter().all(|&s| s == Some(1)) {
                    b"yes"
                } else {
                    b"unknown"
                };
                if word != verdict {
                    return Err(FaultKind::Verdict);
                }
                report.trips += 1;
            }
            (b"W", &[x, status @ 0..=2]) if cell_good(x) => {
                let [b"W", name] = answer[..] else {
                    return Err(MISFIT);
                };
                let k = self.desks[i].writes.len() + 1;
                if name != format!("{i}.{k}").as_bytes() {
                    return Err(FaultKind::WriteName);
                }
                let written = Written {
                    desk: i,
                    cell: x,
                    status: status as u8,
                };
                let write = self.operation(i, Some(written), None);
                self.writes.add(write);
                self.desks[i].writes.push(write);
                self.desks[i].received.add(write);
                self.enter(i, write)?;
                report.writes += 1;
            }
            (b"D", &[u, k]) => {
                if u == 0 || u >= self.desks.len() {
                    return Err(MISFIT);
                }
                let write = *(k.checked_sub(1))
                    .and_then(|at| self.desks[u].writes.get(at))
                    .ok_or(FaultKind::UnknownWrite)?;
                if self.desks[i].received.has(write) {
                    return Err(FaultKind::ReceivedTwice);
                }
                self.desks[i].received.add(write);
                match answer[..] {
                    [b"H", name] => {
                        self.held(i, write, name, &mut report.holds)?;
                        report.held += 1;
                    }
                    [b"A", ref names @ ..] => {
                        self.applied(i, write, names)?;
                        report.applied += 1;
                        report.released += names.len() - 1;
                        report.longest = report.longest.max(names.len());
                    }
                    _ => return Err(MISFIT),
                }
            }
            _ => return Err(MISFIT),
        }
        // Demand 3, for all that is held here.
        let desk = &self.desks[i];
        if (desk.held.iter()).any(|&w| !self.before[w].any(&self.writes, &desk.listed)) {
            return Err(FaultKind::HeldForNothing);
        }
        Ok(())
    }

    /// A delivered write that is held, and the name behind its `H`.
    fn held(
        &mut self,
        i: usize,
        write: Op,
        name: &[u8],
        holds: &mut Holds,
    ) -> Result<(), FaultKind> {
        let named = self.named(name)?;
        let desk = &self.desks[i];
        let missing: Vec<Op> = (self.before[write].list(&self.writes, &desk.listed)).collect();
        if missing.is_empty() {
            return Err(FaultKind::HeldForNothing);
        }
        let named = named.ok_or(FaultKind::HoldUnknown)?;
        self.hold(i, write, named, &missing)?;
        *holds += self.class(i, write, named, &missing);
        self.desks[i].held.push(write);
        self.desks[i].named.add(named);
        Ok(())
    }

    /// The demands on the write that an `H` names; `missing` are those that the
    /// held one waits for.
    fn hold(&self, i: usize, write: Op, named: Op, missing: &[Op]) -> Result<(), FaultKind> {
        let desk = &self.desks[i];
        if desk.settled.has(named) {
            return Err(FaultKind::HoldAgain);
        }
        if !self.before[write].has(named) {
            return Err(FaultKind::HoldNotBefore);
        }
        if desk.listed.has(named) {
            return Err(FaultKind::HoldApplied);
        }
        let t = self.writer(named);
        let mut earlier = self.desks[t].writes.iter().take_while(|&&w| w != named);
        if !earlier.all(|&w| desk.listed.has(w)) {
            return Err(FaultKind::HoldNotFirst);
        }
        if missing.iter().any(|&w| self.writer(w) < t) {
            return Err(FaultKind::HoldDesk);
        }
        Ok(())
    }

    /// What a right `H` names.
    fn class(&self, i: usize, write: Op, named: Op, missing: &[Op]) -> Holds {
        let t = self.writer(named);
        let own = self.writer(write) == t;
        let of_t = missing.iter().filter(|&&w| self.writer(w) == t).count();
        Holds {
            later: usize::from(self.desks[t].writes[0] != named),
            writer: usize::from(own),
            other: usize::from(!own),
            further: usize::from(!own && of_t > 1),
            several: usize::from(missing.len() > of_t),
            held: usize::from(self.desks[i].held.contains(&named)),
            digits: usize::from(t > 9),
        }
    }

    /// The desk of a write.
    fn writer(&self, write: Op) -> usize {
        self.ops[write].map_or(0, |w| w.desk)
    }

    /// The writes that an `A` lists, from the delivered one on.
    fn applied(&mut self, i: usize, delivered: Op, names: &[&[u8]]) -> Result<(), FaultKind> {
        let (first, rest) = names.split_first().ok_or(FaultKind::Answer)?;
        if self.named(first)? != Some(delivered) {
            return Err(FaultKind::NotReceived);
        }
        self.enter(i, delivered)?;
        for name in rest {
            let write = self.named(name)?.ok_or(FaultKind::NotReceived)?;
            let desk = &self.desks[i];
            let at = (desk.held.iter().position(|&w| w == write)).ok_or(FaultKind::NotReceived)?;
            let ready = |w: Op| !self.before[w].any(&self.writes, &desk.listed);
            let smaller = |w: Op| self.writer(w) < self.writer(write);
            if ready(write) && (desk.held.iter()).any(|&w| ready(w) && smaller(w)) {
                return Err(FaultKind::CascadeOrder);
            }
            self.desks[i].held.remove(at);
            self.enter(i, write)?;
        }
        Ok(())
    }

    /// An own read of desk i.
    fn read(&mut self, i: usize, x: usize, shown: Option<Op>) -> Result<(), FaultKind> {
        let op = self.operation(i, None, shown);
        self.desks[i].own_reads.add(op);
        if shown != self.desks[i].latest[x] {
            return Err(FaultKind::Read);
        }
        self.enter(i, op)
    }

    /// A new operation of desk i, with all that comes before it.
    fn operation(&mut self, i: usize, written: Option<Written>, shown: Option<Op>) -> Op {
        let op = self.ops.len();
        let mut before = Set::default();
        for direct in self.desks[i].last.into_iter().chain(shown) {
            before.add_all(&self.before[direct]);
            before.add(direct);
        }
        self.ops.push(written);
        self.before.push(before);
        self.desks[i].last = Some(op);
        op
    }

    /// Puts an operation at the end of desk i's list.
    fn enter(&mut self, i: usize, op: Op) -> Result<(), FaultKind> {
        let desk = &mut self.desks[i];
        let before = &self.before[op];
        if before.any(&self.writes, &desk.listed) {
            return Err(FaultKind::WriteNotEarlier);
        }
        if before.any(&desk.own_reads, &desk.listed) {
            return Err(FaultKind::ReadNotEarlier);
        }
        desk.listed.add(op);
        if desk.named.has(op) {
            desk.settled.add(op);
        }
        if let Some(written) = self.ops[op] {
            desk.latest[written.cell] = Some(op);
        }
        Ok(())
    }

    /// The write that a name `u.k` means: `None` if none was accepted.
    fn named(&self, name: &[u8]) -> Result<Option<Op>, FaultKind> {
        let dot = (name.iter().position(|&b| b == b'.')).ok_or(FaultKind::Answer)?;
        let u = number(&name[..dot]).ok_or(FaultKind::Answer)?;
        let k = number(&name[dot + 1..]).ok_or(FaultKind::Answer)?;
        let writes = self.desks.get(u).map(|d| &d.writes);
        Ok(writes
            .zip(k.checked_sub(1))
            .and_then(|(w, at)| w.get(at))
            .copied())
    }
}

/// A decimal number as schedules and answers have it.
fn number(field: &[u8]) -> Option<usize> {
    let good = matches!(field, [b'0'] | [b'1'..=b'9', ..]) && field.len() <= 5;
    if !good || !field.iter().all(u8::is_ascii_digit) {
        return None;
    }
    std::str::from_utf8(field).ok()?.parse().ok()
}
