//! `access_inspect`, held against what the independent implementation says.

use evidence::image;

/// The shape of the call. The program takes the linked library; its own tests
/// also take wrong ones.
pub type Inspect = fn(&[u8], &mut [u64]) -> u64;

/// How many calls of each sort were held.
#[derive(Clone, Copy, Debug, Default, PartialEq, Eq)]
pub struct Tally {
    /// Five numbers lent.
    pub exact: usize,
    /// Fewer.
    pub short: usize,
    /// More.
    pub longer: usize,
}

/// The five numbers that a call has to write.
pub fn expected(image: &[u8]) -> [u64; 5] {
    match image::load(image) {
        Ok(table) => {
            let (n, m, open) = (table.desks(), table.cells(), table.open_count());
            [0, 0, n.into(), m.into(), open as u64]
        }
        Err(fault) => {
            let place = fault.place().unwrap_or_default() as u64;
            [fault.refusal().number().into(), place, 0, 0, 0]
        }
    }
}

/// Holds what is found in an image: with five numbers lent, with more, and with
/// fewer, which is refused and leaves them.
pub fn hold(inspect: Inspect, image: &[u8], tally: &mut Tally) -> Result<(), String> {
    let expected = expected(image);
    for lent in [5, 4, 0, 6, 42] {
        let before: Vec<u64> = (0..lent).map(pattern).collect();
        let mut after = before.clone();
        let number = inspect(image, &mut after);
        let (wanted, written) = match lent {
            0..=4 => (14, &[][..]),
            _ => (0, &expected[..]),
        };
        match lent {
            5 => tally.exact += 1,
            0..=4 => tally.short += 1,
            _ => tally.longer += 1,
        }
        if number != wanted {
            return Err(format!(
                "access_inspect gives {number} in place of {wanted}, lent {lent} numbers"
            ));
        }
        let (front, behind) = after.split_at(written.len());
        if front != written {
            return Err(format!(
                "the finding is {front:?} in place of {written:?}, lent {lent} numbers"
            ));
        }
        if *behind != before[written.len()..] {
            return Err(format!(
                "lent {lent} numbers: what lies in finding from number {} on is not as found",
                written.len()
            ));
        }
    }
    Ok(())
}

/// Numbers that no finding has.
fn pattern(at: usize) -> u64 {
    0xbeef_0000_0000_0000 + at as u64
}
