//! The rules of "Saved image", one by one, on the bytes of an image.

/// A rule that an image breaks.
#[derive(Clone, Copy, Debug, PartialEq, Eq, PartialOrd, Ord, Hash)]
pub enum Rule {
    /// Refusal 15.
    Length,
    /// Refusal 12.
    Check,
    /// n, m or the open count is out of range.
    HeadRange,
    /// Not the blocks that n, m and the open count ask for.
    Blocks,
    /// They are, but not all in the edition that n asks for.
    Edition,
    /// A byte that is not named is not zero (cells past m are such bytes).
    UnnamedByte,
    DeskNumber,
    /// A place past n of a count or clock.
    DeskPastN,
    /// A place past n of a vector.
    VectorPastN,
    CountAboveOwn,
    ClockAboveCount,
    ClockOwnPlace,
    UnsetNotZero,
    CellWriter,
    CellStatus,
    CellAboveCount,
    CellWriterPlace,
    VectorAboveOwn,
    OpenWriter,
    OpenStatus,
    OpenCell,
    /// The open list is not exactly the one asked for, as a set.
    OpenSet,
    /// It is, and is out of order.
    OpenOrder,
    MarkRange,
    MarkPastN,
    MarkTwo,
    AppliedAboveCount,
    HeldReady,
}

fn vector(bytes: &[u8], places: usize) -> Vec<u32> {
    (0..places)
        .map(|t| u32::from(bytes[2 * t]) + 256 * u32::from(bytes[2 * t + 1]))
        .collect()
}

/// What a load has to answer: nothing if the image is accepted, or the number and
/// its place. Goes over the blocks from the last to the first, so that what is
/// written down last is the first; the check is the handbook's, two running sums.
pub fn finding(image: &[u8]) -> Option<(u8, Option<usize>)> {
    let (count, rest) = (image.len() / 512, image.len() % 512);
    if count == 0 || rest != 0 {
        return Some((15, None));
    }
    let (mut wrong_check, mut cannot_stand) = (None, None);
    for at in (0..count).rev() {
        let block = &image[512 * at..512 * at + 512];
        let (mut so_far, mut sums) = (0u64, 0u64);
        for j in (0..508).rev() {
            so_far += u64::from(block[j]);
            sums += so_far;
        }
        let check = (508..512)
            .rev()
            .fold(0, |all, j| all * 256 + u64::from(block[j]));
        if check != sums + 1 {
            wrong_check = Some(at);
        }
        let kinds: &[u8] = if at == 0 { &[1] } else { &[2, 3, 4] };
        let place = block[2] as usize + 256 * block[3] as usize;
        if place != at || ![1, 2].contains(&block[1]) || !kinds.contains(&block[0]) {
            cannot_stand = Some(at);
        }
    }
    match (wrong_check, cannot_stand) {
        (Some(at), _) => Some((12, Some(at))),
        (None, Some(at)) => Some((13, Some(at))),
        (None, None) if broken(image).is_empty() => None,
        (None, None) => Some((13, Some(count))),
    }
}

/// All rules that the image breaks; those about blocks come alone.
pub fn broken(image: &[u8]) -> Vec<Rule> {
    if image.is_empty() || image.len() / 512 * 512 != image.len() {
        return vec![Rule::Length];
    }
    for block in image.chunks(512) {
        let sum: u64 = (0..508).map(|j| (j as u64 + 1) * u64::from(block[j])).sum();
        let check: u64 = (0..4).map(|j| u64::from(block[508 + j]) << (8 * j)).sum();
        if check != sum + 1 {
            return vec![Rule::Check];
        }
    }
    let (n, m, open) = (image[4] as usize, image[5] as usize, image[6] as usize);
    if n == 0 || n > 16 || m == 0 || m > 64 || open > 64 {
        return vec![Rule::HeadRange];
    }
    // Edition, places, bytes of a cell and of an open write, and how many of
    // each to a block.
    let (edition, places, cell, open_write, cells, opens) = match n {
        1..=8 => (1, 8, 20, 28, 25, 18),
        _ => (2, 16, 36, 52, 14, 9),
    };
    // Which block has to be of which kind.
    let per_desk = m.div_ceil(cells);
    let mut kinds = vec![1];
    kinds.extend(vec![2; n]);
    kinds.extend(vec![3; n * per_desk]);
    kinds.extend(vec![4; open.div_ceil(opens)]);
    let fits = |(place, block): (usize, &[u8])| {
        [block[0], block[2], block[3]] == [kinds[place], place as u8, 0]
    };
    if image.len() != 512 * kinds.len() || !image.chunks(512).enumerate().all(fits) {
        return vec![Rule::Blocks];
    }
    if image.chunks(512).any(|block| block[1] != edition) {
        return vec![Rule::Edition];
    }

    let mut found = Vec::new();
    let mut named = vec![false; image.len()];
    let mut name = |from: usize, count: usize| named[from..from + count].fill(true);
    name(4, 3);
    let desk_at = |i: usize| 512 * (1 + i) + 4;
    let cell_at =
        |i: usize, x: usize| 512 * (1 + n + i * per_desk + x / cells) + 4 + cell * (x % cells);
    let open_at =
        |j: usize| 512 * (1 + n + n * per_desk + j / opens) + 4 + open_write * (j % opens);

    let vectors = |from: usize| -> Vec<Vec<u32>> {
        (0..n)
            .map(|i| vector(&image[desk_at(i) + from..], places))
            .collect()
    };
    let (counts, clocks) = (vectors(4), vectors(4 + 2 * places));
    let own: Vec<u32> = (0..n).map(|u| counts[u][u]).collect();
    for i in 0..n {
        name(desk_at(i), 1);
        name(desk_at(i) + 4, 4 * places);
        if usize::from(image[desk_at(i)]) != i + 1 {
            found.push(Rule::DeskNumber);
        }
        if (n..places).any(|t| counts[i][t] > 0 || clocks[i][t] > 0) {
            found.push(Rule::DeskPastN);
        }
        if (0..n).any(|u| counts[i][u] > own[u]) {
            found.push(Rule::CountAboveOwn);
        }
        if (0..n).any(|t| clocks[i][t] > counts[i][t]) {
            found.push(Rule::ClockAboveCount);
        }
        if clocks[i][i] != own[i] {
            found.push(Rule::ClockOwnPlace);
        }
        for x in 0..m {
            let cell = &image[cell_at(i, x)..][..cell];
            name(cell_at(i, x), 2);
            name(cell_at(i, x) + 4, 2 * places);
            let (writer, v) = (cell[0] as usize, vector(&cell[4..], places));
            if writer == 0 {
                if cell[1] > 0 || v.iter().any(|&p| p > 0) {
                    found.push(Rule::UnsetNotZero);
                }
                continue;
            }
            if cell[1] > 2 {
                found.push(Rule::CellStatus);
            }
            if (n..places).any(|t| v[t] > 0) {
                found.push(Rule::VectorPastN);
            }
            if (0..n).any(|t| v[t] > counts[i][t]) {
                found.push(Rule::CellAboveCount);
            }
            if (0..n).any(|t| v[t] > own[t]) {
                found.push(Rule::VectorAboveOwn);
            }
            if writer > n {
                found.push(Rule::CellWriter);
            } else if v[writer - 1] == 0 {
                found.push(Rule::CellWriterPlace);
            }
        }
    }

    let mut listed = Vec::new();
    for j in 0..open {
        let at = open_at(j);
        name(at, 3);
        name(at + 4, 3 * places);
        let write = &image[at..at + open_write];
        let (writer, v) = (write[0] as usize, vector(&write[4..], places));
        let marks = &write[4 + 2 * places..];
        if write[1] > 2 {
            found.push(Rule::OpenStatus);
        }
        if write[2] == 0 || write[2] as usize > m {
            found.push(Rule::OpenCell);
        }
        if (n..places).any(|t| v[t] > 0) {
            found.push(Rule::VectorPastN);
        }
        if (0..n).any(|t| v[t] > own[t]) {
            found.push(Rule::VectorAboveOwn);
        }
        if marks[n..].iter().any(|&mark| mark > 0) {
            found.push(Rule::MarkPastN);
        }
        if marks[..n].iter().any(|&mark| mark > 2) {
            found.push(Rule::MarkRange);
        }
        if writer == 0 || writer > n {
            found.push(Rule::OpenWriter);
            continue;
        }
        let u = writer - 1;
        let k = v[u];
        listed.push((u, k));
        for i in 0..n {
            let at_most = (0..n).all(|t| v[t] <= counts[i][t]);
            let ready = (0..n).all(|t| {
                if t == u {
                    counts[i][t] + 1 == k
                } else {
                    v[t] <= counts[i][t]
                }
            });
            // A mark above 2 is told once, by its range.
            if marks[i] <= 2 && (marks[i] == 2) != (k <= counts[i][u]) {
                found.push(Rule::MarkTwo);
            } else if marks[i] == 2 && !at_most {
                found.push(Rule::AppliedAboveCount);
            }
            if marks[i] == 1 && ready {
                found.push(Rule::HeldReady);
            }
        }
    }
    let mut asked = Vec::new();
    for u in 0..n {
        for k in 1..=own[u] {
            if (0..n).any(|i| counts[i][u] < k) {
                asked.push((u, k));
            }
        }
    }
    if listed != asked {
        let mut sorted = listed.clone();
        sorted.sort();
        if sorted == asked {
            found.push(Rule::OpenOrder);
        } else if !found.contains(&Rule::OpenWriter) {
            found.push(Rule::OpenSet);
        }
    }
    for block in 0..kinds.len() {
        if (4..508).any(|j| !named[512 * block + j] && image[512 * block + j] > 0) {
            found.push(Rule::UnnamedByte);
        }
    }
    found.sort();
    found.dedup();
    found
}
