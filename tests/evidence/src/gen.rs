//! Schedules and damaged images from a seed.
//!
//! Everything here is a function of its arguments: the same seed gives the
//! same bytes on every machine. To steer towards traffic that is accepted, the
//! generator runs a [`Table`] of its own beside the text it writes; what comes
//! out is text, and no test takes the generator's word for any answer.

mod damage;

pub use damage::{damage, damaged_image, in_edition, Damage, Sample};

use crate::image;
use crate::table::{Delivery, Mark, Table, MAX_DESKS};
use crate::text::{Reader, Session, MAX_INPUT, MAX_LINE};

/// A small pseudo-random generator (splitmix64).
#[derive(Clone, Debug)]
pub struct Rng(u64);

impl Rng {
    /// A generator that starts from a seed.
    pub fn new(seed: u64) -> Rng {
        Rng(seed)
    }

    /// The next 64 bits.
    pub fn bits(&mut self) -> u64 {
        self.0 = self.0.wrapping_add(0x9e37_79b9_7f4a_7c15);
        let mut z = self.0;
        z = (z ^ (z >> 30)).wrapping_mul(0xbf58_476d_1ce4_e5b9);
        z = (z ^ (z >> 27)).wrapping_mul(0x94d0_49bb_1331_11eb);
        z ^ (z >> 31)
    }

    /// A number from 0 to `end` - 1; `end` is at least 1.
    pub fn below(&mut self, end: usize) -> usize {
        ((u128::from(self.bits()) * end as u128) >> 64) as usize
    }

    /// A number from `first` to `last`.
    pub fn range(&mut self, first: usize, last: usize) -> usize {
        first + self.below(last - first + 1)
    }

    /// True in `part` of `whole` cases.
    pub fn chance(&mut self, part: usize, whole: usize) -> bool {
        self.below(whole) < part
    }

    /// One of a list.
    pub fn pick<'a, T>(&mut self, list: &'a [T]) -> &'a T {
        &list[self.below(list.len())]
    }
}

/// The kinds of schedule.
#[derive(Clone, Copy, Debug, PartialEq, Eq, Hash)]
pub enum Kind {
    /// Mostly accepted traffic: late, shuffled and cut-off delivery, reads,
    /// trips, and a few steps that are refused.
    Traffic,
    /// A half-typed file: traffic between lines that are no steps, long lines,
    /// and often no LF at the end.
    HalfTyped,
    /// Values at and just past each limit.
    Edges,
    /// Runs that meet 64 open writes, and free entries again.
    Full,
    /// Runs of one desk.
    Single,
    /// Inputs of 65,535, 65,536, 65,537 or more bytes, whatever the number of
    /// lines asked for.
    Size,
    /// One of the others, by the seed.
    Mixed,
}

impl Kind {
    /// All kinds.
    pub const ALL: [Kind; 7] = [
        Kind::Traffic,
        Kind::HalfTyped,
        Kind::Edges,
        Kind::Full,
        Kind::Single,
        Kind::Size,
        Kind::Mixed,
    ];

    /// The kind's name on the command line.
    pub fn name(self) -> &'static str {
        match self {
            Kind::Traffic => "traffic",
            Kind::HalfTyped => "half-typed",
            Kind::Edges => "edges",
            Kind::Full => "full",
            Kind::Single => "single",
            Kind::Size => "size",
            Kind::Mixed => "mixed",
        }
    }

    /// The kind of this name.
    pub fn from_name(name: &str) -> Option<Kind> {
        Kind::ALL.into_iter().find(|k| k.name() == name)
    }
}

/// A schedule of at most `lines` lines. Half of the seeds give more than 8 desks.
pub fn schedule(seed: u64, kind: Kind, lines: usize) -> Vec<u8> {
    schedule_of(seed, kind, lines, None)
}

/// As [`schedule`], with so many desks. `Single` has one, whatever is asked for.
pub fn schedule_of(seed: u64, kind: Kind, lines: usize, asked: Option<usize>) -> Vec<u8> {
    // Drawn apart: the traffic of all other seeds is as it was before there
    // were more than 8.
    let mut many = Rng::new(seed ^ (kind as u64 + 1) << 48);
    let many = many.chance(1, 2).then(|| {
        let some = many.range(10, 15);
        *many.pick(&[9, 16, some, some])
    });
    let desks = Desks(asked.or(many));
    let mut rng = Rng::new(seed ^ (kind as u64 + 1) << 56);
    let mut out = Lines {
        text: Vec::new(),
        left: lines,
    };
    match kind {
        Kind::Traffic => {
            let n = desks.or(rng.range(2, 8));
            traffic(n, &mut rng, &mut out);
        }
        Kind::HalfTyped => half_typed(desks, &mut rng, &mut out),
        Kind::Edges => edges(desks, &mut rng, &mut out),
        Kind::Full => full(desks, &mut rng, &mut out),
        Kind::Single => traffic(1, &mut rng, &mut out),
        Kind::Size => size(desks, &mut rng, &mut out),
        Kind::Mixed => {
            let kinds = [
                Kind::Traffic,
                Kind::Traffic,
                Kind::HalfTyped,
                Kind::Edges,
                Kind::Full,
                Kind::Single,
            ];
            let kind = *rng.pick(&kinds);
            return schedule_of(rng.bits(), kind, lines, asked);
        }
    }
    out.text
}

/// The number of desks that is asked for, if one is.
#[derive(Clone, Copy)]
struct Desks(Option<usize>);

impl Desks {
    /// That number, or else this one.
    fn or(self, n: usize) -> usize {
        self.0.unwrap_or(n)
    }
}

/// A table that a schedule gave.
pub fn table(seed: u64) -> Table {
    let mut rng = Rng::new(seed ^ 0x7ab1_e000_0000_0000);
    loop {
        let kind = *rng.pick(&[Kind::Traffic, Kind::Traffic, Kind::Full, Kind::Single]);
        let lines = rng.range(1, 250);
        let text = schedule(rng.bits(), kind, lines);
        let mut session = Session::new();
        for line in Reader::new(&text) {
            session.answer(line, &mut Vec::new());
        }
        if let Some(table) = session.table() {
            return table.clone();
        }
    }
}

/// The image of a table that keeps the rules and that no schedule of `replay`
/// gives: that of [`table`], with the numbers of each desk moved up by one and
/// the same amount everywhere, for most desks to just below 65,535.
pub fn worn_image(seed: u64) -> Vec<u8> {
    let table = table(seed);
    let mut rng = Rng::new(seed ^ 0x3047_0000_0000_0000);
    let n = table.desks();
    let mut up = [0u16; MAX_DESKS];
    for desk in 1..=n {
        let own = table
            .applied(desk.into())
            .map_or(0, |a| a[desk as usize - 1]);
        let room = u16::MAX - own;
        up[desk as usize - 1] = match rng.below(4) {
            0 => rng.below(usize::from(room) + 1) as u16,
            1 => room,
            _ => room - rng.below(4) as u16,
        };
    }
    let bytes = image::to_vec(&table).expect("a table that a schedule gave keeps the rules");
    damage::raised(bytes, &up)
}

/// The image of a table that keeps the rules, and that most likely no schedule
/// gives: that of [`table`] or a [`worn_image`], with up to a dozen changes to
/// cells, clocks, open writes and marks that no written rule forbids.
pub fn odd_image(seed: u64) -> Vec<u8> {
    let mut rng = Rng::new(seed ^ 0x0dd0_0000_0000_0000);
    let good = if rng.chance(1, 3) {
        worn_image(rng.bits())
    } else {
        image::to_vec(&table(rng.bits())).expect("a table that a schedule gave keeps the rules")
    };
    damage::changed(good, &mut rng)
}

/// Traffic that goes on from a table, without an N: for a session that begins
/// with a loaded table.
pub fn schedule_from(table: &Table, seed: u64, lines: usize) -> Vec<u8> {
    let mut rng = Rng::new(seed ^ 0xf403_0000_0000_0000);
    let mut out = Lines {
        text: Vec::new(),
        left: lines,
    };
    let mut traffic = Traffic::new(table.clone(), &mut rng);
    while out.more() {
        traffic.line(&mut rng, &mut out);
    }
    out.text
}

/// Schedule text in the making.
struct Lines {
    text: Vec<u8>,
    left: usize,
}

impl Lines {
    /// Adds a line, if there is room for one.
    fn put(&mut self, line: impl AsRef<[u8]>) {
        if self.left > 0 {
            self.left -= 1;
            self.text.extend_from_slice(line.as_ref());
            self.text.push(b'\n');
        }
    }

    fn more(&self) -> bool {
        self.left > 0
    }
}

/// In which order outstanding deliveries are made.
#[derive(Clone, Copy)]
enum Order {
    First,
    Last,
    Any,
}

/// Traffic over a table: what was written and is still to be delivered.
struct Traffic {
    table: Table,
    /// (desk, writer, number)
    due: Vec<(u16, u16, u16)>,
    /// Desks that receive nothing for a while.
    cut: [bool; MAX_DESKS + 1],
    order: Order,
    /// The cell last changed at each desk.
    fresh: [u16; MAX_DESKS + 1],
    /// Weights of write, deliver, read, trip, stray.
    weights: [usize; 5],
    /// With more deliveries outstanding than this, a write is rare.
    ceiling: usize,
}

impl Traffic {
    /// Traffic over a fresh table.
    fn fresh(n: usize, m: usize, rng: &mut Rng) -> Traffic {
        let table = Table::new(n as u16, m as u16).expect("n and m are in range");
        Traffic::new(table, rng)
    }

    fn new(table: Table, rng: &mut Rng) -> Traffic {
        let mut due = Vec::new();
        for write in table.open_writes() {
            for (desk, mark) in (1..=table.desks()).zip(write.marks) {
                if mark == Mark::Missing {
                    due.push((desk.into(), write.name.desk.into(), write.name.number));
                }
            }
        }
        let weights = [
            [30, 45, 15, 7, 3],
            [20, 30, 30, 15, 5],
            [40, 40, 15, 5, 0],
            [15, 60, 20, 5, 0],
        ];
        let weights = if table.desks() == 1 {
            [45, 0, 30, 20, 5]
        } else {
            *rng.pick(&weights)
        };
        Traffic {
            table,
            due,
            cut: [false; MAX_DESKS + 1],
            order: *rng.pick(&[Order::First, Order::Last, Order::Any, Order::Any]),
            fresh: [1; MAX_DESKS + 1],
            weights,
            ceiling: *rng.pick(&[6, 15, 40, 120, 500]),
        }
    }

    fn n(&self) -> usize {
        self.table.desks().into()
    }

    fn m(&self) -> usize {
        self.table.cells().into()
    }

    fn desk(&self, rng: &mut Rng) -> u16 {
        rng.range(1, self.n()) as u16
    }

    fn cell(&self, rng: &mut Rng) -> u16 {
        rng.range(1, self.m()) as u16
    }

    /// A cell that is likely to show something new at a desk.
    fn fresh_cell(&self, desk: u16, rng: &mut Rng) -> u16 {
        if rng.chance(3, 5) {
            self.fresh[desk as usize]
        } else {
            self.cell(rng)
        }
    }

    fn write(&mut self, desk: u16, cell: u16, status: u16, out: &mut Lines) {
        out.put(format!("W {desk} {cell} {status}"));
        if let Ok(name) = self.table.write(desk, cell, status) {
            self.fresh[desk as usize] = cell;
            for to in 1..=self.n() as u16 {
                if to != desk {
                    self.due.push((to, desk, name.number));
                }
            }
        }
    }

    /// Makes the outstanding delivery at a place of `due`.
    fn deliver(&mut self, at: usize, out: &mut Lines) {
        let (desk, writer, number) = self.due.remove(at);
        out.put(format!("D {desk} {writer} {number}"));
        let cell = (self.table.open_writes())
            .find(|w| (w.name.desk.into(), w.name.number) == (writer, number))
            .map(|w| w.cell.into());
        if let (Ok(Delivery::Applied(_)), Some(cell)) =
            (self.table.deliver(desk, writer, number), cell)
        {
            self.fresh[desk as usize] = cell;
        }
    }

    /// An outstanding delivery, by the order of this run.
    fn next_due(&self, rng: &mut Rng) -> Option<usize> {
        let can: Vec<usize> = (0..self.due.len())
            .filter(|&at| !self.cut[self.due[at].0 as usize])
            .collect();
        match self.order {
            _ if rng.chance(1, 10) && !can.is_empty() => Some(*rng.pick(&can)),
            Order::First => can.first().copied(),
            Order::Last => can.last().copied(),
            Order::Any if can.is_empty() => None,
            Order::Any => Some(*rng.pick(&can)),
        }
    }

    /// One line of traffic.
    fn line(&mut self, rng: &mut Rng, out: &mut Lines) {
        let desk = self.desk(rng) as usize;
        if rng.chance(1, if self.cut[desk] { 10 } else { 30 }) {
            self.cut[desk] ^= true;
        }
        let mut roll = rng.below(self.weights.iter().sum());
        let mut what = 0;
        while roll >= self.weights[what] {
            roll -= self.weights[what];
            what += 1;
        }
        if what == 0 && self.due.len() > self.ceiling && rng.chance(9, 10) {
            what = 1;
        }
        let desk = self.desk(rng);
        match what {
            1 => match self.next_due(rng) {
                Some(at) => self.deliver(at, out),
                None => self.read(desk, rng, out),
            },
            2 => self.read(desk, rng, out),
            3 => {
                let most = *rng.pick(&[2, 3, 4, 16]);
                let count = rng.range(1, most);
                self.trip(desk, count, rng, out);
            }
            4 => self.stray(rng, out),
            _ => {
                let cell = self.fresh_cell(desk, rng);
                let status = *rng.pick(&[0, 1, 1, 2]);
                self.write(desk, cell, status, out);
            }
        }
    }

    fn read(&mut self, desk: u16, rng: &mut Rng, out: &mut Lines) {
        let cell = self.fresh_cell(desk, rng);
        out.put(format!("R {desk} {cell}"));
        let _ = self.table.read(desk, cell);
    }

    fn trip(&mut self, desk: u16, count: usize, rng: &mut Rng, out: &mut Lines) {
        let cells: Vec<u16> = (0..count).map(|_| self.fresh_cell(desk, rng)).collect();
        out.put(trip_line(desk, &cells));
        let _ = self.table.trip(desk, &cells);
    }

    /// A step that has the right form and is, in most cases, refused.
    fn stray(&mut self, rng: &mut Rng, out: &mut Lines) {
        let (n, m) = (self.n() as u16, self.m() as u16);
        let (i, u, x) = (self.desk(rng), self.desk(rng), self.cell(rng));
        let own = self.table.applied(u).map_or(0, |a| a[u as usize - 1]);
        let past = if n <= 8 { 9 } else { 17 };
        let bad_desk = *rng.pick(&[0, n + 1, past, 65_535]);
        let bad_cell = *rng.pick(&[0, m + 1, 65, 65_535]);
        let line = match rng.below(13) {
            0 => format!("R {bad_desk} {x}"),
            1 => format!("R {i} {bad_cell}"),
            2 => format!("W {bad_desk} {bad_cell} 3"),
            3 => format!("W {i} {bad_cell} 3"),
            4 => format!("W {i} {x} {}", rng.pick(&[3, 4, 65_535])),
            5 => format!("D {bad_desk} {u} 1"),
            6 => format!("D {i} {bad_desk} 1"),
            7 => format!("D {i} {i} {}", rng.pick(&[0, 1, own, 65_535])),
            8 => format!(
                "D {i} {u} {}",
                rng.pick(&[0, own.saturating_add(1), 65_535])
            ),
            9 | 10 => format!("D {i} {u} {}", rng.range(0, own.into())),
            11 => {
                let count = *rng.pick(&[0, 17]);
                let cells: Vec<u16> = (0..count).map(|_| self.cell(rng)).collect();
                trip_line(*rng.pick(&[i, bad_desk]), &cells)
            }
            _ => trip_line(i, &[x, bad_cell]),
        };
        // Run it, in case it is accepted after all.
        let mut beside = Lines {
            text: Vec::new(),
            left: 1,
        };
        beside.put(&line);
        let mut session = Session::with_table(self.table.clone());
        for line in Reader::new(&beside.text) {
            session.answer(line, &mut Vec::new());
        }
        if let Some(table) = session.table() {
            self.table = table.clone();
        }
        out.put(line);
    }
}

fn trip_line(desk: u16, cells: &[u16]) -> String {
    let cells: String = cells.iter().map(|x| format!(" {x}")).collect();
    format!("T {desk}{cells}")
}

/// A random number of cells; small ones are the busy ones.
fn cells(rng: &mut Rng) -> usize {
    let most = *rng.pick(&[1, 2, 3, 4, 16, 64]);
    rng.range(1, most)
}

fn traffic(n: usize, rng: &mut Rng, out: &mut Lines) {
    let m = cells(rng);
    out.put(format!("N {n} {m}"));
    let mut traffic = Traffic::fresh(n, m, rng);
    while out.more() {
        traffic.line(rng, out);
    }
}

fn full(desks: Desks, rng: &mut Rng, out: &mut Lines) {
    let n = desks.or(*rng.pick(&[2, 2, 2, 3, 3, 4, 8]));
    let m = cells(rng);
    out.put(format!("N {n} {m}"));
    let mut t = Traffic::fresh(n, m, rng);
    let loner = rng.chance(1, 2).then(|| t.desk(rng));
    let mut round = 0;
    while out.more() {
        // Fill up, and a write too many.
        let over = rng.range(1, 3);
        let mut refused = 0;
        while out.more() && refused < over {
            let full = t.table.open_count() == 64;
            refused += usize::from(full);
            let desk = loner.unwrap_or(t.desk(rng));
            let cell = t.cell(rng);
            t.write(desk, cell, rng.below(3) as u16, out);
            if rng.chance(1, 12) {
                let desk = t.desk(rng);
                t.read(desk, rng, out);
            }
        }
        // Deliver: one write everywhere, a stretch, or all from behind.
        round += 1;
        match rng.below(if round == 1 { 1 } else { 3 }) {
            0 => {
                for _ in 0..rng.range(1, 4) {
                    if let Some(&(_, writer, number)) = t.due.first() {
                        while let Some(at) =
                            (t.due.iter()).position(|d| (d.1, d.2) == (writer, number))
                        {
                            t.deliver(at, out);
                        }
                        let desk = t.desk(rng);
                        t.write(desk, 1, 1, out);
                    }
                }
            }
            1 => {
                for _ in 0..rng.range(1, 90) {
                    if let Some(at) = t.next_due(rng) {
                        t.deliver(at, out);
                    }
                }
            }
            _ => {
                let to = t.desk(rng);
                while let Some(at) = t.due.iter().rposition(|d| d.0 == to) {
                    // All but the first are held: received, and still open.
                    if t.due.iter().filter(|d| d.0 == to).count() == 1 {
                        let desk = t.desk(rng);
                        t.write(desk, 1, 2, out);
                    }
                    t.deliver(at, out);
                    if !out.more() {
                        break;
                    }
                }
            }
        }
    }
}

fn half_typed(desks: Desks, rng: &mut Rng, out: &mut Lines) {
    // Steps and nonsense before there is a table.
    for _ in 0..rng.below(6) {
        let line = match rng.below(8) {
            0 => "R 1 1".into(),
            1 => "W 1 1 1".into(),
            2 => "D 1 2 1".into(),
            3 => "T 1".into(),
            4 => format!("N {} {}", rng.below(19), rng.pick(&[0, 65, 65_535])),
            5 => format!("N {} {}", rng.pick(&[0, 17, 65_535]), rng.below(66)),
            6 => "N 65536 1".into(),
            _ => "n 3 2".into(),
        };
        if rng.chance(1, 3) {
            out.put(spoil(rng, line.as_bytes()));
        } else {
            out.put(line);
        }
    }
    let n = desks.or(rng.range(1, 8));
    let m = cells(rng);
    out.put(format!("N {n} {m}"));
    let mut t = Traffic::fresh(n, m, rng);
    while out.more() {
        let start = out.text.len();
        t.line(rng, out);
        match rng.below(10) {
            0 | 1 => {
                // A second, spoilt copy of the line just written.
                let line = out.text[start..].to_vec();
                out.put(spoil(rng, line.strip_suffix(b"\n").unwrap_or(&line)));
            }
            2 => out.put(long_line(rng)),
            3 if rng.chance(1, 3) => out.put(format!("N {n} {m}")),
            _ => {}
        }
    }
    if rng.chance(1, 2) {
        while out.text.last() == Some(&b'\n') && rng.chance(9, 10) {
            out.text.pop();
        }
    }
}

/// A spoilt line; now and then one that is still a step.
fn spoil(rng: &mut Rng, line: &[u8]) -> Vec<u8> {
    let mut line = line.to_vec();
    let at = rng.below(line.len() + 1);
    match rng.below(16) {
        0 => line.truncate(at),
        1 => line.push(b' '),
        2 => line.insert(0, b' '),
        3 => line.push(b'\r'),
        4 => line.insert(at, *rng.pick(b" \t\r\0+-0.")),
        5 => line.insert(at, rng.below(256) as u8),
        6 => line.extend_from_slice(b" 0"),
        7 => line.extend_from_slice(*rng.pick(&[b" 65536", b" 65535", b" 70000", b" 99999"])),
        8 => line.make_ascii_lowercase(),
        9 => line.clear(),
        10 => {
            // A leading zero for a field, or a sign.
            if let Some(space) = line.iter().position(|&b| b == b' ') {
                line.insert(space + 1, *rng.pick(b"0+-"));
            }
        }
        11 => {
            if let Some(space) = line.iter().rposition(|&b| b == b' ') {
                line.insert(space, b' ');
            }
        }
        12 => {
            if let Some(space) = line.iter().rposition(|&b| b == b' ') {
                line.truncate(space + rng.below(2));
            }
        }
        13 => {
            let count = rng.below(20);
            line = (0..count).map(|_| rng.below(256) as u8).collect();
        }
        14 => line.extend_from_slice("\u{e9}".as_bytes()),
        _ => {
            let digits: Vec<usize> = (0..line.len())
                .filter(|&at| line[at].is_ascii_digit())
                .collect();
            if !digits.is_empty() {
                let at = *rng.pick(&digits);
                line.splice(at..at + 1, *b"123456789123456789012");
            }
        }
    }
    // The spoilt line has to stay one line.
    line.retain(|&b| b != b'\n');
    line
}

/// A line of 127 to 130 bytes.
fn long_line(rng: &mut Rng) -> Vec<u8> {
    let length = rng.range(MAX_LINE - 1, MAX_LINE + 2);
    match rng.below(4) {
        0 => vec![*rng.pick(b"RWDTN 0x\xff"); length],
        1 => {
            let mut line = b"R 1 1".to_vec();
            line.resize(length, b' ');
            line
        }
        _ => long_trip(length, *rng.pick(&[0, 1, 1, 2, 9, 17])),
    }
}

/// A trip line of just this length, all of it in good form.
fn long_trip(length: usize, desk: u16) -> Vec<u8> {
    let mut line = format!("T {desk}").into_bytes();
    if (length - line.len()) % 2 == 1 {
        line.extend_from_slice(b" 10");
    }
    while line.len() < length {
        line.extend_from_slice(b" 1");
    }
    line
}

fn edges(desks: Desks, rng: &mut Rng, out: &mut Lines) {
    for _ in 0..rng.below(5) {
        out.put(*rng.pick(&[
            "N 17 64",
            "N 16 65",
            "N 17 65",
            "N 0 1",
            "N 1 0",
            "N 65535 1",
            "N 1 65535",
            "N 65536 1",
            "N 1 65536",
            "N 16",
            "N",
            "N 16 64 1",
            "N 016 64",
        ]));
    }
    let n = desks.or(*rng.pick(&[1, 2, 7, 8]));
    // At the edges of a block of cells, in either edition.
    let m = *rng.pick(match n {
        1..=8 => &[1, 25, 26, 50, 51, 63, 64],
        _ => &[1, 14, 15, 28, 29, 42, 43, 56, 57, 63, 64],
    });
    out.put(format!("N {n} {m}"));
    let mut t = Traffic::fresh(n, m, rng);
    while out.more() {
        let i = *rng.pick(&[0, 1, n as u16, n as u16 + 1, 65_535]);
        let x = *rng.pick(&[1, m as u16, m as u16, m as u16 + 1, 0, 65_535]);
        let (desk, cell) = (t.desk(rng), t.cell(rng));
        match rng.below(14) {
            0 => out.put(format!("R {i} {x}")),
            1 => out.put(format!("W {i} {x} {}", rng.pick(&[3, 65_535]))),
            2 => t.write(n as u16, m as u16, 2, out),
            3 => out.put(format!("W {desk} {cell} 3")),
            4 => t.trip(desk, 16, rng, out),
            5 => out.put(trip_line(desk, &[cell; 17])),
            6 => out.put(trip_line(i, &[x; 17][..*rng.pick(&[0, 1, 16, 17])])),
            7 => {
                let big = rng.pick(&["65535", "65536", "65545", "100000", "4294967297"]);
                let form = rng.pick(&["R B 1", "R 1 B", "W 1 1 B", "D 1 B 1", "D 1 2 B", "T 1 B"]);
                out.put(form.replace('B', big));
            }
            8 => out.put(long_trip(MAX_LINE, *rng.pick(&[desk, 0]))),
            9 => out.put(long_trip(MAX_LINE + 1, desk)),
            10 => t.stray(rng, out),
            _ => t.line(rng, out),
        }
    }
}

fn size(desks: Desks, rng: &mut Rng, out: &mut Lines) {
    let far = MAX_INPUT + 2 + rng.below(5_000);
    let length = *rng.pick(&[MAX_INPUT - 1, MAX_INPUT, MAX_INPUT, MAX_INPUT + 1, far]);
    let n = desks.or(rng.range(1, 8));
    let m = cells(rng);
    out.left = usize::MAX;
    out.put(format!("N {n} {m}"));
    let mut t = Traffic::fresh(n, m, rng);
    while out.text.len() + 200 < length {
        t.line(rng, out);
    }
    // To the byte: a filler that is no step, and a step at the end.
    let last = *rng.pick(&["R 1 1\n", "R 1 1"]);
    while out.text.len() + last.len() < length {
        let rest = length - last.len() - out.text.len();
        out.put(vec![b'x'; (rest - 1).min(100)]);
    }
    out.text.extend_from_slice(last.as_bytes());
    debug_assert_eq!(out.text.len(), length);
}
