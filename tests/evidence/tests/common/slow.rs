//! The step machine and its image, as slowly as document 01 puts it.

use std::collections::HashMap;

#[derive(Clone, Copy, PartialEq)]
enum Place {
    Missing,
    Held,
    Applied,
}

/// An edition as the documents have it, number by number.
#[derive(Clone, Copy)]
pub struct Shape {
    pub edition: u8,
    pub places: usize,
    pub cell: usize,
    pub cells: usize,
    pub open: usize,
    pub opens: usize,
}

pub const ONE: Shape = Shape {
    edition: 1,
    places: 8,
    cell: 20,
    cells: 25,
    open: 28,
    opens: 18,
};

pub const TWO: Shape = Shape {
    edition: 2,
    places: 16,
    cell: 36,
    cells: 14,
    open: 52,
    opens: 9,
};

/// The shape of the image of a table of n desks.
pub fn shape(n: usize) -> Shape {
    if n > 8 {
        TWO
    } else {
        ONE
    }
}

#[derive(Clone)]
struct Write {
    desk: usize,
    number: usize,
    cell: usize,
    status: usize,
    vector: [usize; 17],
}

/// Desks and cells count from 1, as in the document; place 0 is unused.
pub struct Slow {
    n: usize,
    m: usize,
    clock: Vec<[usize; 17]>,
    applied: Vec<[usize; 17]>,
    cells: Vec<Vec<Option<Write>>>,
    /// All writes since the N, or since the load.
    writes: Vec<Write>,
    /// Up to this number a desk's writes were closed when the table was loaded.
    closed: [usize; 17],
    /// Where write w stands at desk i.
    places: HashMap<(usize, usize), Place>,
}

impl Slow {
    fn place(&self, i: usize, w: usize) -> Place {
        *self.places.get(&(i, w)).unwrap_or(&Place::Missing)
    }

    fn open(&self) -> Vec<usize> {
        (0..self.writes.len())
            .filter(|&w| (1..=self.n).any(|i| self.place(i, w) != Place::Applied))
            .collect()
    }

    /// The desks whose places fail for write w at desk i.
    fn failing(&self, i: usize, w: usize) -> Vec<usize> {
        let write = &self.writes[w];
        (1..=self.n)
            .filter(|&t| {
                let good = if t == write.desk {
                    self.applied[i][t] == write.number - 1
                } else {
                    self.applied[i][t] >= write.vector[t]
                };
                !good
            })
            .collect()
    }

    /// The number of the first write of desk t that is not applied at desk i.
    fn first_missing(&self, i: usize, t: usize) -> usize {
        (0..self.writes.len())
            .filter(|&w| self.writes[w].desk == t && self.place(i, w) != Place::Applied)
            .map(|w| self.writes[w].number)
            .min()
            .expect("a place fails for a write that is not applied")
    }

    fn apply(&mut self, i: usize, w: usize) -> String {
        let write = self.writes[w].clone();
        self.places.insert((i, w), Place::Applied);
        self.applied[i][write.desk] += 1;
        let name = format!(" {}.{}", write.desk, write.number);
        self.cells[i][write.cell] = Some(write.clone());
        name
    }

    fn show(&mut self, i: usize, x: usize) -> Option<Write> {
        let shown = self.cells[i][x].clone();
        if let Some(write) = &shown {
            for t in 1..=self.n {
                self.clock[i][t] = self.clock[i][t].max(write.vector[t]);
            }
        }
        shown
    }

    fn step(&mut self, letter: &str, f: &[usize]) -> Result<String, usize> {
        let (n, m) = (self.n, self.m);
        let desk = move |i: usize| {
            if (1..=n).contains(&i) {
                Ok(i)
            } else {
                Err(1usize)
            }
        };
        let cell = move |x: usize| {
            if (1..=m).contains(&x) {
                Ok(x)
            } else {
                Err(2usize)
            }
        };
        match (letter, f) {
            ("R", &[i, x]) => {
                let (i, x) = (desk(i)?, cell(x)?);
                Ok(match self.show(i, x) {
                    Some(w) => format!("R {} {}.{}", w.status, w.desk, w.number),
                    None => "R -".to_string(),
                })
            }
            ("W", &[i, x, v]) => {
                let (i, x) = (desk(i)?, cell(x)?);
                if v > 2 {
                    return Err(3);
                }
                if self.applied[i][i] == 65_535 {
                    return Err(4);
                }
                if self.open().len() == 64 {
                    return Err(5);
                }
                self.clock[i][i] += 1;
                let write = Write {
                    desk: i,
                    number: self.clock[i][i],
                    cell: x,
                    status: v,
                    vector: self.clock[i],
                };
                self.writes.push(write);
                Ok(format!("W{}", self.apply(i, self.writes.len() - 1)))
            }
            ("D", &[i, u, k]) => {
                let (i, u) = (desk(i)?, desk(u)?);
                if i == u {
                    return Err(6);
                }
                if (1..=self.closed[u]).contains(&k) {
                    return Err(8);
                }
                let w = (self.writes.iter())
                    .position(|w| w.desk == u && w.number == k)
                    .ok_or(7usize)?;
                if self.place(i, w) != Place::Missing {
                    return Err(8);
                }
                if let Some(&t) = self.failing(i, w).first() {
                    self.places.insert((i, w), Place::Held);
                    return Ok(format!("H {t}.{}", self.first_missing(i, t)));
                }
                let mut answer = format!("A{}", self.apply(i, w));
                loop {
                    let mut ready: Vec<usize> = (0..self.writes.len())
                        .filter(|&w| self.place(i, w) == Place::Held)
                        .filter(|&w| self.failing(i, w).is_empty())
                        .collect();
                    ready.sort_by_key(|&w| self.writes[w].desk);
                    let Some(&w) = ready.first() else {
                        return Ok(answer);
                    };
                    answer += &self.apply(i, w);
                }
            }
            ("T", &[i, ref cells @ ..]) => {
                let i = desk(i)?;
                if cells.is_empty() || cells.len() > 16 {
                    return Err(9);
                }
                for &x in cells {
                    cell(x)?;
                }
                let shown: Vec<Option<usize>> = (cells.iter())
                    .map(|&x| self.show(i, x).map(|w| w.status))
                    .collect();
                Ok(if shown.contains(&Some(2)) {
                    "T no"
                } else if shown.iter().all(|&s| s == Some(1)) {
                    "T yes"
                } else {
                    "T unknown"
                }
                .to_string())
            }
            _ => Err(10),
        }
    }

    /// The answer line to a line that has the form of a step.
    pub fn answer(&mut self, line: &[u8]) -> String {
        let line = std::str::from_utf8(line).unwrap();
        let mut fields = line.split(' ');
        let letter = fields.next().unwrap();
        let fields: Vec<usize> = fields.map(|f| f.parse().unwrap()).collect();
        match self.step(letter, &fields) {
            Ok(answer) => format!("{answer}\n"),
            Err(number) => format!("E {number}\n"),
        }
    }

    fn fresh(n: usize, m: usize) -> Slow {
        Slow {
            n,
            m,
            clock: vec![[0; 17]; n + 1],
            applied: vec![[0; 17]; n + 1],
            cells: vec![vec![None; m + 1]; n + 1],
            writes: Vec::new(),
            closed: [0; 17],
            places: HashMap::new(),
        }
    }

    /// The table of an image that keeps the rules.
    pub fn load(image: &[u8]) -> Slow {
        let (n, m, open) = (image[4] as usize, image[5] as usize, image[6] as usize);
        let shape = shape(n);
        let vector = |at: usize| -> [usize; 17] {
            std::array::from_fn(|t| match t {
                0 => 0,
                _ if t > shape.places => 0,
                _ => image[at + 2 * t - 2] as usize + 256 * image[at + 2 * t - 1] as usize,
            })
        };
        let write = |at: usize, cell: usize| Write {
            desk: image[at] as usize,
            number: vector(at + 4)[image[at] as usize],
            cell,
            status: image[at + 1] as usize,
            vector: vector(at + 4),
        };
        let mut slow = Slow::fresh(n, m);
        let mut block = 1;
        for i in 1..=n {
            slow.applied[i] = vector(512 * block + 8);
            slow.clock[i] = vector(512 * block + 8 + 2 * shape.places);
            block += 1;
        }
        for i in 1..=n {
            for x in 1..=m {
                let (over, rest) = ((x - 1) / shape.cells, (x - 1) % shape.cells);
                let at = 512 * (block + over) + 4 + shape.cell * rest;
                if image[at] > 0 {
                    slow.cells[i][x] = Some(write(at, x));
                }
            }
            block += m.div_ceil(shape.cells);
        }
        for w in 0..open {
            let at = 512 * (block + w / shape.opens) + 4 + shape.open * (w % shape.opens);
            slow.writes.push(write(at, image[at + 2] as usize));
            for i in 1..=n {
                let place = [Place::Missing, Place::Held, Place::Applied];
                slow.places
                    .insert((i, w), place[image[at + 3 + 2 * shape.places + i] as usize]);
            }
        }
        for u in 1..=n {
            slow.closed[u] = (1..=n).map(|i| slow.applied[i][u]).min().unwrap();
        }
        slow
    }

    /// The image, written by hand from "Saved image" and T-06.
    pub fn image(&self) -> Vec<u8> {
        self.image_in(shape(self.n))
    }

    /// The table in any shape; what it has no room for is left out.
    pub fn image_in(&self, shape: Shape) -> Vec<u8> {
        let mut payloads: Vec<(u8, Vec<u8>)> = Vec::new();
        let mut open = self.open();
        open.sort_by_key(|&w| (self.writes[w].desk, self.writes[w].number));
        let places = |v: &[usize; 17]| -> Vec<u8> {
            (v[1..=shape.places].iter())
                .flat_map(|&p| [(p % 256) as u8, (p / 256) as u8])
                .collect()
        };
        payloads.push((1, vec![self.n as u8, self.m as u8, open.len() as u8]));
        for i in 1..=self.n {
            let mut p = vec![i as u8, 0, 0, 0];
            p.extend(places(&self.applied[i]));
            p.extend(places(&self.clock[i]));
            payloads.push((2, p));
        }
        for i in 1..=self.n {
            for x in 1..=self.m {
                if (x - 1) % shape.cells == 0 {
                    payloads.push((3, Vec::new()));
                }
                let p = &mut payloads.last_mut().unwrap().1;
                match &self.cells[i][x] {
                    Some(w) => {
                        p.extend([w.desk as u8, w.status as u8, 0, 0]);
                        p.extend(places(&w.vector));
                    }
                    None => p.extend(vec![0; shape.cell]),
                }
            }
        }
        for (at, &w) in open.iter().enumerate() {
            if at % shape.opens == 0 {
                payloads.push((4, Vec::new()));
            }
            let p = &mut payloads.last_mut().unwrap().1;
            let write = &self.writes[w];
            p.extend([write.desk as u8, write.status as u8, write.cell as u8, 0]);
            p.extend(places(&write.vector));
            for i in 1..=shape.places {
                p.push(match self.place(i, w) {
                    Place::Missing => 0,
                    Place::Held => 1,
                    Place::Applied => 2,
                });
            }
        }
        let mut image = Vec::new();
        for (place, (kind, payload)) in payloads.iter().enumerate() {
            let mut block = vec![
                *kind,
                shape.edition,
                (place % 256) as u8,
                (place / 256) as u8,
            ];
            block.extend(payload);
            block.resize(508, 0);
            let mut check = 1u64;
            for (j, &byte) in block.iter().enumerate() {
                check += (j as u64 + 1) * u64::from(byte);
            }
            block.extend(&check.to_le_bytes()[..4]);
            image.extend(block);
        }
        image
    }
}

/// `replay`, and the table at its end.
pub fn replay(input: &[u8]) -> (Vec<u8>, Option<Slow>) {
    if input.len() > 65_536 {
        return (b"E 14\n".to_vec(), None);
    }
    let mut table = None;
    let mut out = String::new();
    let mut lines: Vec<&[u8]> = input.split(|&b| b == 10).collect();
    let rest = lines.pop().unwrap();
    for line in lines {
        match answer(line, &mut table) {
            Ok(answer) => out += &format!("{answer}\n"),
            Err(number) => out += &format!("E {number}\n"),
        }
    }
    if !rest.is_empty() {
        out += "E 10\n";
    }
    (out.into_bytes(), table)
}

fn answer(line: &[u8], table: &mut Option<Slow>) -> Result<String, usize> {
    if line.len() > 128 {
        return Err(10);
    }
    let line = std::str::from_utf8(line).map_err(|_| 10usize)?;
    let (letter, rest) = line.split_once(' ').ok_or(10usize)?;
    let mut fields = Vec::new();
    for field in rest.split(' ') {
        // What is written has to be just how the number is written.
        let number: usize = field.parse().map_err(|_| 10usize)?;
        if number.to_string() != field || number > 65_535 {
            return Err(10);
        }
        fields.push(number);
    }
    let count = fields.len();
    let form = match letter {
        "N" | "R" => count == 2,
        "W" | "D" => count == 3,
        "T" => count >= 1,
        _ => false,
    };
    if !form || (letter == "N") != table.is_none() {
        return Err(10);
    }
    if let Some(table) = table {
        return table.step(letter, &fields);
    }
    let (n, m) = (fields[0], fields[1]);
    if n == 0 || n > 16 || m == 0 || m > 64 {
        return Err(11);
    }
    *table = Some(Slow::fresh(n, m));
    Ok("N".to_string())
}
