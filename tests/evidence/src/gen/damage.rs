//! Damaged images: each written rule broken, in a field of its own; and what
//! happens to images on their way, with the number and the place that a load gives.

use super::Rng;
use crate::image::{self, check_of, Edition, Fault, BLOCK, CHECK, PAYLOAD};
use crate::table::MAX_DESKS;
use crate::Refusal;

/// A way to damage an image.
///
/// Those that break a rule of the table leave, where the rules allow it, all
/// other rules kept, and put the block checks right.
#[derive(Clone, Copy, Debug, PartialEq, Eq, Hash)]
pub enum Damage {
    // The length: refusal 15.
    /// No bytes at all.
    Empty,
    /// 1 to 511 bytes cut off.
    CutBytes,
    /// 1 to 511 bytes too many.
    ExtraBytes,
    /// The tail cut off inside any block, the first one included.
    TailInside,
    /// A check wrong in one block, another that cannot stand there, and a wrong
    /// length: 15, not 12 or 13.
    LengthBeforeCheck,

    // The checks: refusal 12.
    /// A bit of a check changed.
    CheckByte,
    /// A bit of a block changed, its check left.
    ContentByte,
    /// A block of zeros, check included.
    ZeroBlock,
    /// Every bit of a block turned over, its check's too.
    BlockFlipped,
    /// Two blocks exchanged and their places put right, the checks left.
    SwapUnsealed,
    /// The checks of two blocks wrong: the first is named.
    TwoChecks,
    /// A rule broken in the first block and a check in the last: 12, not 13.
    CheckBeforeRule,
    /// One block cannot stand there and another, before or behind it, has a
    /// wrong check: 12, not 13.
    CheckAndStray,

    // The blocks: refusal 13 from here on.
    /// A block's kind is another.
    KindWrong,
    /// The edition of one block, or of all, is neither 1 nor 2.
    EditionWrong,
    /// The edition of one block, or of all but one, is the other.
    EditionMixed,
    /// The edition of all blocks is the other.
    EditionUnfit,
    /// All of it in the other edition: of 9 desks and more, as far as that goes.
    EditionOther,
    /// A block's place is another.
    PlaceWrong,
    /// Every bit of a block turned over, its check put right.
    FlippedSealed,
    /// The last block is missing.
    BlockCut,
    /// The tail cut off at a block's end, one block at least being left.
    TailCut,
    /// Some block is missing, the places put right or not.
    BlockDropped,
    /// A block stands twice, the places put right.
    BlockAdded,
    /// A block stands twice, one behind the other, as it is.
    BlockDoubled,
    /// A block without content behind the last, its check right.
    ZeroBlockAdded,
    /// Two blocks of different kinds exchanged, the places put right.
    KindsSwapped,
    /// Two blocks exchanged with their places: every check is right.
    PlacesSwapped,
    /// A block of another table in another place than its own, as it is.
    ForeignElsewhere,
    /// Two blocks that cannot stand there: the first is named.
    TwoStrays,
    /// A block that cannot stand there, and in another, before or behind it, a
    /// byte that has to be zero: the first of these is named.
    StrayAndRule,

    // Kind 1.
    /// n is not 1 to 16.
    DesksRange,
    /// n is one that the edition is not for.
    DesksUnfit,
    /// m is not 1 to 64.
    CellsRange,
    /// The open count is not that of the list.
    OpenCountWrong,
    /// A byte behind the open count is not zero.
    HeadByte,

    // Kind 2.
    /// A desk number is another.
    DeskNumber,
    /// Two desks' blocks exchanged, the places put right.
    DesksSwapped,
    /// A byte that is not named is not zero.
    DeskByte,
    /// A count past n.
    CountPastN,
    /// A clock place past n.
    ClockPastN,
    /// A count of u above u's own.
    CountAboveOwn,
    /// A clock above its desk's counts.
    ClockAboveCount,
    /// A clock below its desk's own count, at that place.
    ClockOwnPlace,

    // Kind 3.
    /// A cell's writer is above n.
    CellWriter,
    /// A set cell's status is above 2.
    CellStatus,
    /// A byte that is not named is not zero.
    CellByte,
    /// A set cell's vector has a place past n.
    CellPlacePastN,
    /// A cell past m.
    CellPastM,
    /// An unset cell with a status or a vector.
    UnsetNotZero,
    /// A set cell's vector above its desk's counts.
    CellAboveCount,
    /// A set cell's vector is zero at its writer's place.
    CellWriterPlaceZero,

    // Kind 4.
    /// An open write's writer is another, or no desk.
    OpenWriter,
    /// An open write's status is above 2.
    OpenStatus,
    /// An open write's cell is not 1 to m.
    OpenCell,
    /// An open write's byte 3 is not zero.
    OpenByte,
    /// An open write's vector has a place past n.
    OpenPlacePastN,
    /// An open write's vector above t's own count.
    OpenAboveOwn,
    /// An open write's vector above the counts of a desk that applied it.
    OpenAboveCount,
    /// An open write's number is another.
    OpenNumber,
    /// An open write is not in the list.
    OpenMissing,
    /// An open write stands twice.
    OpenTwice,
    /// A write that all desks have applied stands in the list.
    OpenClosed,
    /// Two neighbours exchanged.
    OpenOrder,
    /// A byte behind the last open write of a block is not zero.
    OpenPastCount,
    /// A mark above 2.
    MarkRange,
    /// A mark of a desk past n.
    MarkPastN,
    /// Mark 2 above the desk's count.
    MarkAppliedTooSoon,
    /// Mark 0 or 1 at or below the desk's count.
    MarkNotApplied,
    /// Mark 1 on a write that is ready.
    MarkHeldReady,

    /// Changes that no rule forbids: accepted.
    Allowed,

    // Whatever comes out: nothing is foretold.
    /// One to three bytes changed.
    Scribble,
    /// Two blocks of a kind exchanged, the places put right.
    SameKindSwapped,
    /// The blocks of the other edition under the number of its own. Where all
    /// that differs is zero they are the same.
    BlocksOther,
    /// A block of another table in its own place, as it is.
    ForeignBlock,
}

impl Damage {
    /// All ways.
    pub const ALL: [Damage; 75] = [
        Damage::Empty,
        Damage::CutBytes,
        Damage::ExtraBytes,
        Damage::TailInside,
        Damage::LengthBeforeCheck,
        Damage::CheckByte,
        Damage::ContentByte,
        Damage::ZeroBlock,
        Damage::BlockFlipped,
        Damage::SwapUnsealed,
        Damage::TwoChecks,
        Damage::CheckBeforeRule,
        Damage::CheckAndStray,
        Damage::KindWrong,
        Damage::EditionWrong,
        Damage::EditionMixed,
        Damage::EditionUnfit,
        Damage::EditionOther,
        Damage::PlaceWrong,
        Damage::FlippedSealed,
        Damage::BlockCut,
        Damage::TailCut,
        Damage::BlockDropped,
        Damage::BlockAdded,
        Damage::BlockDoubled,
        Damage::ZeroBlockAdded,
        Damage::KindsSwapped,
        Damage::PlacesSwapped,
        Damage::ForeignElsewhere,
        Damage::TwoStrays,
        Damage::StrayAndRule,
        Damage::DesksRange,
        Damage::DesksUnfit,
        Damage::CellsRange,
        Damage::OpenCountWrong,
        Damage::HeadByte,
        Damage::DeskNumber,
        Damage::DesksSwapped,
        Damage::DeskByte,
        Damage::CountPastN,
        Damage::ClockPastN,
        Damage::CountAboveOwn,
        Damage::ClockAboveCount,
        Damage::ClockOwnPlace,
        Damage::CellWriter,
        Damage::CellStatus,
        Damage::CellByte,
        Damage::CellPlacePastN,
        Damage::CellPastM,
        Damage::UnsetNotZero,
        Damage::CellAboveCount,
        Damage::CellWriterPlaceZero,
        Damage::OpenWriter,
        Damage::OpenStatus,
        Damage::OpenCell,
        Damage::OpenByte,
        Damage::OpenPlacePastN,
        Damage::OpenAboveOwn,
        Damage::OpenAboveCount,
        Damage::OpenNumber,
        Damage::OpenMissing,
        Damage::OpenTwice,
        Damage::OpenClosed,
        Damage::OpenOrder,
        Damage::OpenPastCount,
        Damage::MarkRange,
        Damage::MarkPastN,
        Damage::MarkAppliedTooSoon,
        Damage::MarkNotApplied,
        Damage::MarkHeldReady,
        Damage::Allowed,
        Damage::Scribble,
        Damage::SameKindSwapped,
        Damage::BlocksOther,
        Damage::ForeignBlock,
    ];

    /// What a load of an image so damaged has to answer, without the place;
    /// `None` if it depends on the bytes.
    pub fn foretold(self) -> Option<Result<(), Refusal>> {
        match self {
            Damage::Scribble
            | Damage::SameKindSwapped
            | Damage::BlocksOther
            | Damage::ForeignBlock => None,
            Damage::Allowed => Some(Ok(())),
            Damage::Empty
            | Damage::CutBytes
            | Damage::ExtraBytes
            | Damage::TailInside
            | Damage::LengthBeforeCheck => Some(Err(Refusal::ImageLength)),
            Damage::CheckByte
            | Damage::ContentByte
            | Damage::ZeroBlock
            | Damage::BlockFlipped
            | Damage::SwapUnsealed
            | Damage::TwoChecks
            | Damage::CheckBeforeRule
            | Damage::CheckAndStray => Some(Err(Refusal::ImageDamaged)),
            _ => Some(Err(Refusal::RuleBroken)),
        }
    }
}

/// A damaged image.
#[derive(Clone, Debug, PartialEq, Eq)]
pub struct Sample {
    /// What was done to it.
    pub damage: Damage,
    /// Its bytes.
    pub image: Vec<u8>,
    /// What a load has to answer, with the place, by what was done; `None` if it
    /// depends on the bytes.
    pub foretold: Option<Result<(), Fault>>,
}

/// A damaged image of a random table.
pub fn damaged_image(seed: u64) -> Sample {
    let mut rng = Rng::new(seed ^ 0xda3a_6e00_0000_0000);
    loop {
        let what = *rng.pick(&Damage::ALL);
        let table = super::table(rng.bits());
        let good = image::to_vec(&table).expect("a table that a schedule gave keeps the rules");
        if let Some(sample) = damage(&good, what, &mut rng) {
            return sample;
        }
    }
}

/// Damages a good image; `None` if it has no place for that.
pub fn damage(good: &[u8], what: Damage, rng: &mut Rng) -> Option<Sample> {
    let (image, place) = damaged(good, what, rng)?;
    // Where no block is named only other rules break: the block count.
    let place = place.unwrap_or(image.len() / BLOCK);
    let foretold = what.foretold().map(|verdict| {
        verdict.map_err(|refusal| match refusal {
            Refusal::ImageLength => Fault::WrongLength,
            Refusal::ImageDamaged => Fault::Check(place),
            _ => Fault::Rule(place),
        })
    });
    Some(Sample {
        damage: what,
        image,
        foretold,
    })
}

/// The bytes of a damaged image, and the block that a load has to name, if it has
/// to name one.
fn damaged(good: &[u8], what: Damage, rng: &mut Rng) -> Option<(Vec<u8>, Option<usize>)> {
    let mut f = Fields::of(good);
    let mut named = None;
    let (n, m, open) = (f.n, f.m, f.open);
    let blocks = good.len() / BLOCK;
    let block = rng.below(blocks);
    match what {
        Damage::Empty => f.image.clear(),
        Damage::CutBytes => f.image.truncate(good.len() - rng.range(1, BLOCK - 1)),
        Damage::ExtraBytes => f.image.resize(good.len() + rng.range(1, BLOCK - 1), 0),
        Damage::TailInside => {
            let inside = block * BLOCK + rng.range(1, BLOCK - 1);
            f.image.truncate(inside);
        }
        Damage::LengthBeforeCheck => {
            let stray = other_block(block, blocks, rng);
            f.make_stray(stray, rng);
            f.put_checks_right();
            f.spoil_check(block, rng);
            let length = match rng.chance(1, 2) {
                true => good.len() - rng.range(1, BLOCK - 1),
                false => good.len() + rng.range(1, BLOCK - 1),
            };
            f.image.resize(length, 0);
            return Some((f.image, None));
        }
        Damage::CheckByte => {
            f.spoil_check(block, rng);
            return Some((f.image, Some(block)));
        }
        Damage::ContentByte => {
            f.image[block * BLOCK + rng.below(CHECK)] ^= 1 << rng.below(8);
            return Some((f.image, Some(block)));
        }
        Damage::ZeroBlock => {
            f.image[block * BLOCK..][..BLOCK].fill(0);
            return Some((f.image, Some(block)));
        }
        Damage::BlockFlipped => {
            f.flip(block);
            return Some((f.image, Some(block)));
        }
        Damage::SwapUnsealed => {
            let with = other_block(block, blocks, rng);
            f.swap_blocks(block, with);
            f.put_places_right();
            return Some((f.image, Some(block.min(with))));
        }
        Damage::TwoChecks => {
            let with = other_block(block, blocks, rng);
            f.spoil_check(block, rng);
            f.spoil_check(with, rng);
            return Some((f.image, Some(block.min(with))));
        }
        Damage::CheckBeforeRule => {
            // A rule broken in the first block, a check wrong in the last.
            f.image[PAYLOAD] = 17;
            f.put_checks_right();
            f.image[good.len() - BLOCK + CHECK] ^= 1;
            return Some((f.image, Some(blocks - 1)));
        }
        Damage::CheckAndStray => {
            let stray = other_block(block, blocks, rng);
            f.make_stray(stray, rng);
            f.put_checks_right();
            f.spoil_check(block, rng);
            return Some((f.image, Some(block)));
        }

        Damage::KindWrong => {
            let byte = &mut f.image[block * BLOCK];
            *byte = other(*byte, &[0, 1, 2, 3, 4, 5, 255], rng);
            // Behind the first block 2, 3 and 4 can stand anywhere.
            let stands = block > 0 && (2..=4).contains(byte);
            named = (!stands).then_some(block);
        }
        Damage::EditionWrong => {
            let (edition, all) = (*rng.pick(&[0, 3, 255]), rng.chance(1, 3));
            f.set_editions(|at| all || at == block, edition);
            named = Some(if all { 0 } else { block });
        }
        Damage::EditionMixed => {
            // The first block, as often as all others together.
            let (one, rest) = (*rng.pick(&[0, block]), rng.chance(1, 3));
            f.set_editions(|at| (at == one) != rest, f.other_edition().number);
        }
        Damage::EditionUnfit => f.set_editions(|_| true, f.other_edition().number),
        Damage::EditionOther => {
            let edition = f.other_edition();
            f.image = f.in_edition(edition, edition.number);
        }
        Damage::BlocksOther => f.image = f.in_edition(f.other_edition(), f.edition.number),
        Damage::PlaceWrong => {
            let at = block * BLOCK + rng.range(2, 3);
            f.image[at] = f.image[at].wrapping_add(1 + rng.below(255) as u8);
            named = Some(block);
        }
        Damage::FlippedSealed => {
            f.flip(block);
            named = Some(block);
        }
        Damage::BlockCut => f.image.truncate(good.len() - BLOCK),
        Damage::TailCut => f.image.truncate(rng.range(1, blocks - 1) * BLOCK),
        Damage::BlockDropped => {
            f.image.drain(block * BLOCK..(block + 1) * BLOCK);
            let placed = rng.chance(1, 2);
            if placed {
                f.put_places_right();
            }
            // The block behind it stands there now: of another kind than 1, and
            // with a place that is one too high.
            let shown = block == 0 || (!placed && block + 1 < blocks);
            named = shown.then_some(block);
        }
        Damage::BlockAdded => {
            let copy = good[block * BLOCK..][..BLOCK].to_vec();
            let at = *rng.pick(&[block, blocks]);
            f.image.splice(at * BLOCK..at * BLOCK, copy);
            f.put_places_right();
            // A second head.
            named = (block == 0).then_some(at.max(1));
        }
        Damage::BlockDoubled => {
            let copy = good[block * BLOCK..][..BLOCK].to_vec();
            f.image.splice(block * BLOCK..block * BLOCK, copy);
            named = Some(block + 1);
        }
        Damage::ZeroBlockAdded => {
            // Zero but for its check, and perhaps a head.
            f.image.resize(good.len() + BLOCK, 0);
            if rng.chance(1, 2) {
                f.image[good.len()] = 4;
                f.image[good.len() + 1] = f.edition.number;
                f.put_places_right();
            } else {
                named = Some(blocks);
            }
        }
        Damage::KindsSwapped => {
            let with = rng.below(blocks);
            if f.image[block * BLOCK] == f.image[with * BLOCK] {
                return None;
            }
            f.swap_blocks(block, with);
            f.put_places_right();
            named = (block == 0 || with == 0).then_some(0);
        }
        Damage::PlacesSwapped => {
            let with = other_block(block, blocks, rng);
            f.swap_blocks(block, with);
            named = Some(block.min(with));
            return Some((f.image, named));
        }
        Damage::ForeignElsewhere | Damage::ForeignBlock => {
            let foreign = foreign(good, rng);
            let elsewhere = what == Damage::ForeignElsewhere;
            let places = 0..foreign.len() / BLOCK;
            let places: Vec<usize> = places.filter(|&at| (at != block) == elsewhere).collect();
            let from = choose(&places, rng)?;
            f.image[block * BLOCK..][..BLOCK].copy_from_slice(&foreign[from * BLOCK..][..BLOCK]);
            named = elsewhere.then_some(block);
            return Some((f.image, named));
        }
        Damage::TwoStrays => {
            let with = other_block(block, blocks, rng);
            f.make_stray(block, rng);
            f.make_stray(with, rng);
            named = Some(block.min(with));
        }
        Damage::StrayAndRule => {
            // A byte of the head or of a desk that has to be zero.
            let broken = rng.range(0, n);
            let at = broken * BLOCK + PAYLOAD + if broken == 0 { 3 } else { 1 };
            f.image[at] = nonzero(rng);
            let stray = other_block(broken, blocks, rng);
            f.make_stray(stray, rng);
            named = Some(stray);
        }

        Damage::DesksRange => f.image[PAYLOAD] = *rng.pick(&[0, 17, 255]),
        Damage::DesksUnfit => {
            f.image[PAYLOAD] = match n {
                1..=8 => rng.range(9, 16) as u8,
                _ => rng.range(1, 8) as u8,
            }
        }
        Damage::CellsRange => f.image[PAYLOAD + 1] = *rng.pick(&[0, 65, 255]),
        Damage::OpenCountWrong => {
            let count = [open.wrapping_sub(1) as u8, open as u8 + 1, 65, 255];
            f.image[PAYLOAD + 2] = other(open as u8, &count, rng);
        }
        Damage::HeadByte => f.image[rng.range(PAYLOAD + 3, CHECK - 1)] = nonzero(rng),

        Damage::DeskNumber => {
            let at = f.desk(rng.below(n));
            f.image[at] = other(f.image[at], &[0, 1, 2, 8, 9, 16, 17, 255], rng);
        }
        Damage::DesksSwapped => {
            let (a, b) = (rng.below(n), rng.below(n));
            if a == b {
                return None;
            }
            f.swap_blocks(1 + a, 1 + b);
            f.put_places_right();
        }
        Damage::DeskByte => {
            let end = f.edition.clock() + 2 * f.edition.places;
            let (before, behind) = (rng.range(1, 3), rng.range(end, CHECK - PAYLOAD - 1));
            let at = f.desk(rng.below(n)) + rng.pick(&[before, behind]);
            f.image[at] = nonzero(rng);
        }
        Damage::CountPastN => f.set_past_n(f.applied(rng.below(n), 0), rng)?,
        Damage::ClockPastN => f.set_past_n(f.clock(rng.below(n), 0), rng)?,
        Damage::CountAboveOwn => {
            // Where all of u's writes are applied: no open write changes.
            let mut places = f.desk_pairs();
            places.retain(|&(i, u)| i != u && f.get(f.applied(i, u)) == f.own(u));
            let (i, u) = choose(&places, rng)?;
            let value = f.own(u).checked_add(1)?;
            f.set(f.applied(i, u), value);
        }
        Damage::ClockAboveCount => {
            let mut places = f.desk_pairs();
            places.retain(|&(i, u)| i != u);
            let (i, u) = choose(&places, rng)?;
            let value = f.get(f.applied(i, u)).checked_add(1)?;
            f.set(f.clock(i, u), value);
        }
        Damage::ClockOwnPlace => {
            let i = rng.below(n);
            let value = f.own(i).checked_sub(1)?;
            f.set(f.clock(i, i), value);
        }

        Damage::CellWriter => {
            let at = f.set_cell(rng)?.2;
            f.image[at] = *rng.pick(&[n as u8 + 1, f.edition.places as u8 + 1, 255]);
        }
        Damage::CellStatus => {
            let at = f.set_cell(rng)?.2;
            f.image[at + 1] = *rng.pick(&[3, 4, 255]);
        }
        Damage::CellByte => {
            let (i, x) = (rng.below(n), rng.below(m));
            let inside = f.cell(i, x) + rng.range(2, 3);
            // Behind the cells that a block has room for; edition 2 fills it.
            let tail = f.cell(i, x) / BLOCK * BLOCK + CHECK - 1 - rng.below(f.spare().max(1));
            let places = if f.spare() > 0 {
                &[inside, tail][..]
            } else {
                &[inside]
            };
            f.image[*rng.pick(places)] = nonzero(rng);
        }
        Damage::CellPlacePastN => {
            let at = f.set_cell(rng)?.2;
            f.set_past_n(at + 4, rng)?;
        }
        Damage::CellPastM => {
            let Edition {
                cell_bytes,
                cells_per_block,
                ..
            } = f.edition;
            if m % cells_per_block == 0 {
                return None;
            }
            let (i, x, from) = f.set_cell(rng)?;
            let past = rng.range(m, m.next_multiple_of(cells_per_block) - 1);
            let to = f.cell(i, past);
            if rng.chance(1, 2) {
                // A whole cell that would be a good one.
                let cell = good[from..][..cell_bytes].to_vec();
                f.image[to..][..cell_bytes].copy_from_slice(&cell);
            } else {
                f.image[to + rng.below(cell_bytes)] = nonzero(rng);
            }
            debug_assert!(x < m);
        }
        Damage::UnsetNotZero => {
            let mut cells = f.all_cells();
            cells.retain(|&(_, _, at)| f.image[at] == 0);
            let (_, _, at) = choose(&cells, rng)?;
            if rng.chance(1, 2) {
                f.image[at + 1] = *rng.pick(&[1, 2]);
            } else {
                let u = rng.below(n);
                f.set(at + 4 + 2 * u, 1);
            }
        }
        Damage::CellAboveCount => {
            // Best where the other bound, t's own count, stays kept.
            let mut places = Vec::new();
            for (i, _, at) in f.all_cells() {
                for t in 0..n {
                    if f.image[at] != 0 && f.get(f.applied(i, t)) < f.own(t) {
                        places.push((i, t, at));
                    }
                }
            }
            let (i, t, at) = choose(&places, rng)?;
            let value = f.get(f.applied(i, t)) + 1;
            f.set(at + 4 + 2 * t, value);
        }
        Damage::CellWriterPlaceZero => {
            let at = f.set_cell(rng)?.2;
            let u = f.image[at] as usize - 1;
            f.set(at + 4 + 2 * u, 0);
        }

        Damage::OpenWriter => {
            let at = f.open_write(rng)?;
            f.image[at] = other(f.image[at], &[0, 1, 2, n as u8 + 1, 17, 255], rng);
        }
        Damage::OpenStatus => {
            let at = f.open_write(rng)?;
            f.image[at + 1] = *rng.pick(&[3, 4, 255]);
        }
        Damage::OpenCell => {
            let at = f.open_write(rng)?;
            f.image[at + 2] = *rng.pick(&[0, m as u8 + 1, 65, 255]);
        }
        Damage::OpenByte => {
            let at = f.open_write(rng)?;
            f.image[at + 3] = nonzero(rng);
        }
        Damage::OpenPlacePastN => {
            let at = f.open_write(rng)?;
            f.set_past_n(at + 4, rng)?;
        }
        Damage::OpenAboveOwn => {
            let at = f.open_write(rng)?;
            let u = f.image[at] as usize - 1;
            let t = rng.below(n);
            if t == u {
                return None;
            }
            let value = f.own(t).checked_add(1)?;
            f.set(at + 4 + 2 * t, value);
        }
        Damage::OpenAboveCount => {
            // Above the counts of a desk marked 2, and not above t's own.
            let mut places = Vec::new();
            for j in 0..open {
                let at = f.open_at(j);
                let u = f.image[at] as usize - 1;
                for i in (0..n).filter(|&i| f.image[f.mark(at, i)] == 2) {
                    for t in (0..n).filter(|&t| t != u) {
                        if f.get(f.applied(i, t)) < f.own(t) {
                            places.push((i, t, at));
                        }
                    }
                }
            }
            let (i, t, at) = choose(&places, rng)?;
            let value = f.get(f.applied(i, t)) + 1;
            f.set(at + 4 + 2 * t, value);
        }
        Damage::OpenNumber => {
            let at = f.open_write(rng)?;
            let place = at + 4 + 2 * (f.image[at] as usize - 1);
            let value = f.get(place);
            let number = *rng.pick(&[value - 1, value.checked_add(1)?, 0]);
            f.set(place, number);
        }
        Damage::OpenMissing => {
            let mut list = f.open_list();
            if list.is_empty() {
                return None;
            }
            list.remove(rng.below(open));
            f.set_open_list(&list);
        }
        Damage::OpenTwice => {
            let mut list = f.open_list();
            if list.is_empty() || open == 64 {
                return None;
            }
            let j = rng.below(open);
            list.insert(j, list[j].clone());
            f.set_open_list(&list);
        }
        Damage::OpenClosed => {
            // A write that every desk has applied, in its right place.
            if open == 64 {
                return None;
            }
            let closed: Vec<(usize, u16)> = (0..n)
                .filter_map(|u| {
                    let low = (0..n).map(|i| f.get(f.applied(i, u))).min()?;
                    (low > 0).then_some((u, low))
                })
                .collect();
            let (u, number) = choose(&closed, rng)?;
            let mut write = vec![0; f.edition.open_bytes];
            write[0] = u as u8 + 1;
            write[2] = 1;
            write[4 + 2 * u..][..2].copy_from_slice(&number.to_le_bytes());
            write[f.edition.marks()..][..n].fill(2);
            let mut list = f.open_list();
            let at = list.iter().take_while(|w| w[0] < write[0]).count();
            list.insert(at, write);
            f.set_open_list(&list);
        }
        Damage::OpenOrder => {
            let mut list = f.open_list();
            if list.len() < 2 {
                return None;
            }
            let j = rng.below(open - 1);
            list.swap(j, j + 1);
            f.set_open_list(&list);
        }
        Damage::OpenPastCount => {
            // Behind the last open write of a block.
            let per_block = f.edition.open_per_block;
            let mut tails: Vec<(usize, usize)> = (0..open)
                .filter(|j| j % per_block == per_block - 1 || j + 1 == open)
                .map(|j| f.open_at(j) + f.edition.open_bytes)
                .map(|end| (end, end / BLOCK * BLOCK + CHECK))
                .collect();
            tails.retain(|(from, to)| from < to);
            let (from, to) = choose(&tails, rng)?;
            f.image[rng.range(from, to - 1)] = nonzero(rng);
        }
        Damage::MarkRange => {
            let at = f.mark(f.open_write(rng)?, rng.below(n));
            f.image[at] = *rng.pick(&[3, 4, 255]);
        }
        Damage::MarkPastN => {
            let places = f.edition.places;
            if n == places {
                return None;
            }
            let at = f.mark(f.open_write(rng)?, rng.range(n, places - 1));
            f.image[at] = *rng.pick(&[1, 2]);
        }
        Damage::MarkAppliedTooSoon => {
            let mut marks = f.marks();
            marks.retain(|&(_, _, at)| f.image[at] != 2);
            let (_, _, at) = choose(&marks, rng)?;
            f.image[at] = 2;
        }
        Damage::MarkNotApplied => {
            let mut marks = f.marks();
            marks.retain(|&(_, _, at)| f.image[at] == 2);
            let (_, _, at) = choose(&marks, rng)?;
            f.image[at] = *rng.pick(&[0, 1]);
        }
        Damage::MarkHeldReady => {
            let mut marks = f.marks();
            marks.retain(|&(j, i, at)| f.image[at] == 0 && f.ready(f.open_at(j), i));
            let (_, _, at) = choose(&marks, rng)?;
            f.image[at] = 1;
        }

        Damage::Allowed => return Some((changed(f.image, rng), None)),
        Damage::Scribble => {
            for _ in 0..rng.range(1, 3) {
                let at = f.interesting_byte(rng);
                f.image[at] = match rng.below(3) {
                    0 => f.image[at].wrapping_add(1),
                    1 => f.image[at].wrapping_sub(1),
                    _ => rng.below(4) as u8,
                };
            }
        }
        Damage::SameKindSwapped => {
            let with = rng.below(blocks);
            if block == with || f.image[block * BLOCK] != f.image[with * BLOCK] {
                return None;
            }
            f.swap_blocks(block, with);
            f.put_places_right();
        }
    }
    f.put_checks_right();
    Some((f.image, named))
}

/// An image of another table than this one.
fn foreign(good: &[u8], rng: &mut Rng) -> Vec<u8> {
    loop {
        let table = super::table(rng.bits());
        let image = image::to_vec(&table).expect("a table that a schedule gave keeps the rules");
        if image != good {
            return image;
        }
    }
}

/// Another block than this one.
fn other_block(block: usize, blocks: usize, rng: &mut Rng) -> usize {
    (block + rng.range(1, blocks - 1)) % blocks
}

/// A good image with the numbers of desk u moved up by `up[u]` in all counts,
/// clocks and vectors.
pub(super) fn raised(good: Vec<u8>, up: &[u16; MAX_DESKS]) -> Vec<u8> {
    let mut f = Fields::of(&good);
    let mut vectors = Vec::new();
    for i in 0..f.n {
        vectors.push(f.applied(i, 0));
        vectors.push(f.clock(i, 0));
    }
    for (_, _, at) in f.all_cells() {
        if f.image[at] != 0 {
            vectors.push(at + 4);
        }
    }
    for j in 0..f.open {
        vectors.push(f.open_at(j) + 4);
    }
    for at in vectors {
        for (u, up) in up.iter().enumerate().take(f.n) {
            let value = f.get(at + 2 * u) + up;
            f.set(at + 2 * u, value);
        }
    }
    f.put_checks_right();
    f.image
}

/// A good image after up to a dozen changes that no written rule forbids.
pub(super) fn changed(good: Vec<u8>, rng: &mut Rng) -> Vec<u8> {
    let mut f = Fields::of(&good);
    for _ in 0..rng.range(1, 12) {
        let _ = f.change(rng);
    }
    f.put_checks_right();
    f.image
}

/// An image in the blocks of one edition, in those of another: places and marks
/// that it has no room for are lost. `None` if it has not the blocks of the first.
pub fn in_edition(image: &[u8], from: Edition, to: Edition) -> Option<Vec<u8>> {
    let mut f = Fields::of(image);
    f.edition = from;
    if image.len() != from.blocks(f.n, f.m, f.open) * BLOCK {
        return None;
    }
    f.image = f.in_edition(to, to.number);
    f.put_checks_right();
    Some(f.image)
}

fn choose<T: Copy>(list: &[T], rng: &mut Rng) -> Option<T> {
    (!list.is_empty()).then(|| *rng.pick(list))
}

/// One of the list that is not `old`.
fn other(old: u8, list: &[u8], rng: &mut Rng) -> u8 {
    let others: Vec<u8> = list.iter().copied().filter(|&b| b != old).collect();
    *rng.pick(&others)
}

fn nonzero(rng: &mut Rng) -> u8 {
    rng.range(1, 255) as u8
}

/// An image and where its fields lie. Desks, cells and open writes count from
/// 0 here.
struct Fields {
    image: Vec<u8>,
    edition: Edition,
    n: usize,
    m: usize,
    open: usize,
}

impl Fields {
    fn of(good: &[u8]) -> Fields {
        Fields {
            image: good.to_vec(),
            edition: Edition::of(good[PAYLOAD].into()),
            n: good[PAYLOAD].into(),
            m: good[PAYLOAD + 1].into(),
            open: good[PAYLOAD + 2].into(),
        }
    }

    fn get(&self, at: usize) -> u16 {
        u16::from_le_bytes([self.image[at], self.image[at + 1]])
    }

    fn set(&mut self, at: usize, value: u16) {
        self.image[at..at + 2].copy_from_slice(&value.to_le_bytes());
    }

    /// A desk's payload.
    fn desk(&self, i: usize) -> usize {
        (1 + i) * BLOCK + PAYLOAD
    }

    fn applied(&self, i: usize, u: usize) -> usize {
        self.desk(i) + 4 + 2 * u
    }

    fn clock(&self, i: usize, u: usize) -> usize {
        self.desk(i) + self.edition.clock() + 2 * u
    }

    fn own(&self, u: usize) -> u16 {
        self.get(self.applied(u, u))
    }

    fn cell(&self, i: usize, x: usize) -> usize {
        let per_block = self.edition.cells_per_block;
        let block = 1 + self.n + i * self.m.div_ceil(per_block) + x / per_block;
        block * BLOCK + PAYLOAD + x % per_block * self.edition.cell_bytes
    }

    fn open_at(&self, j: usize) -> usize {
        let per_block = self.edition.open_per_block;
        let block = self.edition.blocks(self.n, self.m, 0) + j / per_block;
        block * BLOCK + PAYLOAD + j % per_block * self.edition.open_bytes
    }

    /// The mark of desk i of the open write at `write`.
    fn mark(&self, write: usize, i: usize) -> usize {
        write + self.edition.marks() + i
    }

    /// The payload bytes of a block of cells that no cell takes.
    fn spare(&self) -> usize {
        CHECK - PAYLOAD - self.edition.cells_per_block * self.edition.cell_bytes
    }

    fn other_edition(&self) -> Edition {
        match self.edition {
            Edition::ONE => Edition::TWO,
            _ => Edition::ONE,
        }
    }

    fn set_editions(&mut self, which: impl Fn(usize) -> bool, edition: u8) {
        for (at, block) in self.image.chunks_exact_mut(BLOCK).enumerate() {
            if which(at) {
                block[1] = edition;
            }
        }
    }

    /// The table in the blocks of an edition, each with this number: places and
    /// marks that it has no room for are lost. Checks are not put right.
    fn in_edition(&self, edition: Edition, number: u8) -> Vec<u8> {
        let (n, m, open) = (self.n, self.m, self.open);
        let mut to = Fields {
            image: vec![0; edition.blocks(n, m, open) * BLOCK],
            edition,
            ..*self
        };
        let kinds = [1, n, edition.blocks(n, m, 0) - 1 - n];
        let ends = kinds.iter().scan(0, |end, count| {
            *end += count;
            Some(*end)
        });
        let ends: Vec<usize> = ends.collect();
        for (at, block) in to.image.chunks_exact_mut(BLOCK).enumerate() {
            block[0] = 1 + ends.iter().filter(|&&end| at >= end).count() as u8;
            block[1] = number;
        }
        to.put_places_right();
        to.image[PAYLOAD..CHECK].copy_from_slice(&self.image[PAYLOAD..CHECK]);
        let vector = 2 * edition.places.min(self.edition.places);
        for i in 0..n {
            to.copy(self, to.desk(i), self.desk(i), 4);
            to.copy(self, to.applied(i, 0), self.applied(i, 0), vector);
            to.copy(self, to.clock(i, 0), self.clock(i, 0), vector);
            for x in 0..m {
                to.copy(self, to.cell(i, x), self.cell(i, x), 4 + vector);
            }
        }
        for j in 0..open {
            let (at, from) = (to.open_at(j), self.open_at(j));
            to.copy(self, at, from, 4 + vector);
            to.copy(self, to.mark(at, 0), self.mark(from, 0), vector / 2);
        }
        to.image
    }

    fn copy(&mut self, of: &Fields, at: usize, from: usize, count: usize) {
        self.image[at..][..count].copy_from_slice(&of.image[from..][..count]);
    }

    /// Pairs of desks.
    fn desk_pairs(&self) -> Vec<(usize, usize)> {
        let n = self.n;
        (0..n).flat_map(|i| (0..n).map(move |u| (i, u))).collect()
    }

    /// All cells: desk, cell, where.
    fn all_cells(&self) -> Vec<(usize, usize, usize)> {
        (0..self.n)
            .flat_map(|i| (0..self.m).map(move |x| (i, x, self.cell(i, x))))
            .collect()
    }

    /// All marks: open write, desk, where.
    fn marks(&self) -> Vec<(usize, usize, usize)> {
        (0..self.open)
            .flat_map(|j| (0..self.n).map(move |i| (j, i, self.mark(self.open_at(j), i))))
            .collect()
    }

    /// A set cell, if there is one.
    fn set_cell(&self, rng: &mut Rng) -> Option<(usize, usize, usize)> {
        let mut cells = self.all_cells();
        cells.retain(|&(_, _, at)| self.image[at] != 0);
        choose(&cells, rng)
    }

    /// An open write, if there is one.
    fn open_write(&self, rng: &mut Rng) -> Option<usize> {
        (self.open > 0).then(|| self.open_at(rng.below(self.open)))
    }

    fn open_list(&self) -> Vec<Vec<u8>> {
        (0..self.open)
            .map(|j| self.image[self.open_at(j)..][..self.edition.open_bytes].to_vec())
            .collect()
    }

    /// Writes the kind 4 blocks and the open count anew.
    fn set_open_list(&mut self, list: &[Vec<u8>]) {
        self.open = list.len();
        self.image[PAYLOAD + 2] = self.open as u8;
        let before = self.edition.blocks(self.n, self.m, 0);
        self.image.truncate(before * BLOCK);
        let blocks = self.edition.blocks(self.n, self.m, self.open);
        self.image.resize(blocks * BLOCK, 0);
        for block in before..blocks {
            self.image[block * BLOCK] = 4;
            self.image[block * BLOCK + 1] = self.edition.number;
        }
        for (j, write) in list.iter().enumerate() {
            let at = self.open_at(j);
            self.image[at..][..write.len()].copy_from_slice(write);
        }
        self.put_places_right();
    }

    /// Makes a place past n of the vector at `at` nonzero.
    fn set_past_n(&mut self, at: usize, rng: &mut Rng) -> Option<()> {
        let places = self.edition.places;
        if self.n == places {
            return None;
        }
        let u = rng.range(self.n, places - 1);
        self.set(at + 2 * u, *rng.pick(&[1, 256, 65_535]));
        Some(())
    }

    /// Whether the open write at `write` is ready at desk i.
    fn ready(&self, write: usize, i: usize) -> bool {
        let u = self.image[write] as usize - 1;
        (0..self.n).all(|t| {
            let (need, have) = (self.get(write + 4 + 2 * t), self.get(self.applied(i, t)));
            if t == u {
                u32::from(have) + 1 == u32::from(need)
            } else {
                have >= need
            }
        })
    }

    /// Makes one change that the rules allow; `None` if there was no place.
    fn change(&mut self, rng: &mut Rng) -> Option<()> {
        let n = self.n;
        let any =
            |rng: &mut Rng, least: u16, most: u16| rng.range(least.into(), most.into()) as u16;
        match rng.below(7) {
            0 => {
                let at = self.set_cell(rng)?.2;
                self.image[at + 1] = rng.below(3) as u8;
            }
            1 => {
                // Another vector, and perhaps another writer.
                let (i, _, at) = self.set_cell(rng)?;
                let t = rng.below(n);
                let least = u16::from(usize::from(self.image[at]) == t + 1);
                let value = any(rng, least, self.get(self.applied(i, t)));
                self.set(at + 4 + 2 * t, value);
                let u = rng.below(n);
                if self.get(at + 4 + 2 * u) > 0 {
                    self.image[at] = u as u8 + 1;
                }
            }
            2 => {
                // A cell set anew, or made unset.
                let (i, x, u) = (rng.below(n), rng.below(self.m), rng.below(n));
                let at = self.cell(i, x);
                self.image[at..][..self.edition.cell_bytes].fill(0);
                if self.get(self.applied(i, u)) > 0 {
                    self.image[at] = u as u8 + 1;
                    self.image[at + 1] = rng.below(3) as u8;
                    for t in 0..n {
                        let value = any(rng, u16::from(t == u), self.get(self.applied(i, t)));
                        self.set(at + 4 + 2 * t, value);
                    }
                }
            }
            3 => {
                let (i, t) = (rng.below(n), rng.below(n));
                if i != t {
                    let value = any(rng, 0, self.get(self.applied(i, t)));
                    self.set(self.clock(i, t), value);
                }
            }
            4 => {
                let at = self.open_write(rng)?;
                self.image[at + 1] = rng.below(3) as u8;
                self.image[at + 2] = rng.range(1, self.m) as u8;
            }
            5 => {
                // Another vector; what is ready by it is held no more.
                let at = self.open_write(rng)?;
                let t = rng.below(n);
                if t + 1 != self.image[at].into() {
                    let most = (0..n)
                        .filter(|&i| self.image[self.mark(at, i)] == 2)
                        .map(|i| self.get(self.applied(i, t)))
                        .min()?;
                    let value = any(rng, 0, most);
                    self.set(at + 4 + 2 * t, value);
                }
                for i in 0..n {
                    let mark = self.mark(at, i);
                    if self.image[mark] == 1 && self.ready(at, i) {
                        self.image[mark] = 0;
                    }
                }
            }
            _ => {
                let mut marks = self.marks();
                marks.retain(|&(j, i, at)| match self.image[at] {
                    0 => !self.ready(self.open_at(j), i),
                    mark => mark == 1,
                });
                let at = choose(&marks, rng)?.2;
                self.image[at] ^= 1;
            }
        }
        Some(())
    }

    /// A byte of a field that means something.
    fn interesting_byte(&self, rng: &mut Rng) -> usize {
        let i = rng.below(self.n);
        match rng.below(6) {
            0 => self.desk(i) + 4 + rng.below(4 * self.edition.places),
            1 => self.cell(i, rng.below(self.m)) + rng.below(self.edition.cell_bytes),
            2 => match self.set_cell(rng) {
                Some((_, _, at)) => at + rng.below(6),
                None => self.clock(i, i),
            },
            3 | 4 => match self.open_write(rng) {
                Some(at) => at + rng.below(self.edition.open_bytes),
                None => self.applied(i, i),
            },
            _ => rng.below(self.image.len() / BLOCK) * BLOCK + rng.below(CHECK),
        }
    }

    /// Turns over every bit of a block.
    fn flip(&mut self, block: usize) {
        let bytes = &mut self.image[block * BLOCK..][..BLOCK];
        bytes.iter_mut().for_each(|byte| *byte = !*byte);
    }

    /// Changes a bit of a block's check.
    fn spoil_check(&mut self, block: usize, rng: &mut Rng) {
        self.image[block * BLOCK + rng.range(CHECK, BLOCK - 1)] ^= 1 << rng.below(8);
    }

    /// Gives a block a kind, an edition or a place that cannot stand there.
    fn make_stray(&mut self, block: usize, rng: &mut Rng) {
        let head = &mut self.image[block * BLOCK..][..PAYLOAD];
        match rng.below(3) {
            0 if block == 0 => head[0] = *rng.pick(&[0, 2, 3, 4, 5, 255]),
            0 => head[0] = *rng.pick(&[0, 1, 5, 255]),
            1 => head[1] = *rng.pick(&[0, 3, 255]),
            _ => {
                let byte = &mut head[rng.range(2, 3)];
                *byte = byte.wrapping_add(nonzero(rng));
            }
        }
    }

    fn swap_blocks(&mut self, a: usize, b: usize) {
        for j in 0..BLOCK {
            self.image.swap(a * BLOCK + j, b * BLOCK + j);
        }
    }

    fn put_places_right(&mut self) {
        for (block, place) in self.image.chunks_exact_mut(BLOCK).zip(0u16..) {
            block[2..PAYLOAD].copy_from_slice(&place.to_le_bytes());
        }
    }

    fn put_checks_right(&mut self) {
        for block in self.image.chunks_exact_mut(BLOCK) {
            let check = check_of(block);
            block[CHECK..].copy_from_slice(&check.to_le_bytes());
        }
    }
}
