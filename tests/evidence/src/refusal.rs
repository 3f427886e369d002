//! The numbers of refusal.

use std::fmt;

/// A refusal; [`Refusal::number`] is its number in document 01, with 15 and the
/// narrower 12 of T-01.
#[derive(Clone, Copy, Debug, PartialEq, Eq, PartialOrd, Ord, Hash)]
#[repr(u8)]
pub enum Refusal {
    /// 1: a desk is not 1 to n.
    Desk = 1,
    /// 2: a cell is not 1 to m.
    Cell = 2,
    /// 3: a status is not 0 to 2.
    Status = 3,
    /// 4: the desk has written 65,535 times.
    WritesSpent = 4,
    /// 5: the write finds 64 open.
    OpenFull = 5,
    /// 6: delivery of a desk's own write.
    OwnWrite = 6,
    /// 7: the desk has no write of that number.
    NoSuchWrite = 7,
    /// 8: the write was received at that desk before.
    ReceivedBefore = 8,
    /// 9: a trip has 0 or more than 16 cells.
    TripLength = 9,
    /// 10: the line is no step.
    NoStep = 10,
    /// 11: n or m is outside its range.
    TableSize = 11,
    /// 12: a block check of the image is wrong.
    ImageDamaged = 12,
    /// 13: the image, or a table value, breaks another rule.
    RuleBroken = 13,
    /// 14: the lent buffer is too short, or `replay`'s input too long.
    Length = 14,
    /// 15: the image's length is not a nonzero multiple of 512.
    ImageLength = 15,
}

impl Refusal {
    /// All refusals, by number.
    pub const ALL: [Refusal; 15] = [
        Refusal::Desk,
        Refusal::Cell,
        Refusal::Status,
        Refusal::WritesSpent,
        Refusal::OpenFull,
        Refusal::OwnWrite,
        Refusal::NoSuchWrite,
        Refusal::ReceivedBefore,
        Refusal::TripLength,
        Refusal::NoStep,
        Refusal::TableSize,
        Refusal::ImageDamaged,
        Refusal::RuleBroken,
        Refusal::Length,
        Refusal::ImageLength,
    ];

    /// The number of this refusal.
    pub const fn number(self) -> u8 {
        self as u8
    }

    /// The refusal with this number, if there is one.
    pub fn from_number(number: u8) -> Option<Refusal> {
        Refusal::ALL.into_iter().find(|r| r.number() == number)
    }
}

impl fmt::Display for Refusal {
    fn fmt(&self, f: &mut fmt::Formatter<'_>) -> fmt::Result {
        let words = match self {
            Refusal::Desk => "a desk is not 1 to n",
            Refusal::Cell => "a cell is not 1 to m",
            Refusal::Status => "a status is not 0 to 2",
            Refusal::WritesSpent => "the desk has written 65,535 times",
            Refusal::OpenFull => "64 writes are open",
            Refusal::OwnWrite => "delivery of a desk's own write",
            Refusal::NoSuchWrite => "there is no such write",
            Refusal::ReceivedBefore => "the write was received before",
            Refusal::TripLength => "a trip has 0 or more than 16 cells",
            Refusal::NoStep => "the line is no step",
            Refusal::TableSize => "n or m is outside its range",
            Refusal::ImageDamaged => "a block check of the image is wrong",
            Refusal::RuleBroken => "the image or table breaks a rule",
            Refusal::Length => "buffer too short or input too long",
            Refusal::ImageLength => "the image is no whole number of blocks",
        };
        write!(f, "{}: {}", self.number(), words)
    }
}

impl std::error::Error for Refusal {}
