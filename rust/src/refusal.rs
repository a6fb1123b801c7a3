//! The numbered refusals.
use std::error::Error;
use std::fmt;

/// Why a call was refused, or one set of a call on many. Every slice, or that set's part of the bases, is as it was lent.
#[derive(Clone, Copy, Debug, PartialEq, Eq, Hash)]
#[non_exhaustive]
pub enum Refusal {
    /// 1: p is below 2, above 2147483647 or composite.
    Modulus,
    /// 2: n is outside 1 to 8.
    SeriesCount,
    /// 3: the order is above 255.
    Order,
    /// 4: a lent slice has another length than stated.
    Length,
    /// 5: a type entry is above 255.
    TypeEntry,
    /// 6: a coefficient is not below p.
    Coefficient,
    /// 7: k is outside 1 to N.
    FractionSize,
    /// 8: the file's length is zero, not a multiple of 512, or over 8704 bytes.
    FileLength,
    /// 9: a block number is wrong.
    BlockNumber,
    /// 10: check A or B of a block is wrong.
    BlockCheck,
    /// 11: the block count differs from the header's.
    BlockCount,
    /// 12: a spare payload word is not zero.
    SpareWord,
    /// 13: no fraction exists.
    NoFraction,
    /// 14: the number of sets is above 16.
    SetCount,
    /// The inverse of zero was asked for; it has no number.
    InverseOfZero,
}

/// The status of the inverse of zero.
const NO_INVERSE: u32 = 256;

/// The numbered refusals in the order of their numbers, and their words.
const NUMBERED: [(Refusal, &str); 14] = [
    (Refusal::Modulus, "the modulus is below 2, above 2147483647 or composite"),
    (Refusal::SeriesCount, "the number of series is outside 1 to 8"),
    (Refusal::Order, "the order is above 255"),
    (Refusal::Length, "a lent slice has another length than stated"),
    (Refusal::TypeEntry, "a type entry is above 255"),
    (Refusal::Coefficient, "a coefficient is not below the modulus"),
    (Refusal::FractionSize, "k is outside 1 to N"),
    (Refusal::FileLength, "the file's length is zero, not a multiple of 512, or over 8704 bytes"),
    (Refusal::BlockNumber, "a block number is wrong"),
    (Refusal::BlockCheck, "check A or B of a block is wrong"),
    (Refusal::BlockCount, "the block count differs from the header's"),
    (Refusal::SpareWord, "a spare payload word is not zero"),
    (Refusal::NoFraction, "no fraction exists"),
    (Refusal::SetCount, "the number of sets is above 16"),
];

impl Refusal {
    /// The refusal's number, 1 to 14; the inverse of zero has none.
    pub fn number(self) -> Option<u32> {
        NUMBERED.iter().position(|&(refusal, _)| refusal == self).map(|at| at as u32 + 1)
    }

    /// The refusal of a number.
    pub fn from_number(number: u32) -> Option<Refusal> {
        NUMBERED.get((number as usize).checked_sub(1)?).map(|&(refusal, _)| refusal)
    }
}

impl fmt::Display for Refusal {
    fn fmt(&self, f: &mut fmt::Formatter<'_>) -> fmt::Result {
        match self.number() {
            Some(number) => write!(f, "refused {}: {}", number, NUMBERED[number as usize - 1].1),
            None => write!(f, "zero has no inverse"),
        }
    }
}

impl Error for Refusal {}

/// What a status word says. The engine is proved to give no others.
pub(crate) fn answered(status: u32) -> Result<(), Refusal> {
    match status {
        0 => Ok(()),
        NO_INVERSE => Err(Refusal::InverseOfZero),
        number => Err(Refusal::from_number(number).expect("a status of the engine")),
    }
}
