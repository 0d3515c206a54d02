//! 01's table of refusals, and 02's number 20.

use crate::FlagFlaw;

/// A refusal, in the order of the numbers in 01 and 02.
#[derive(Clone, Copy, Debug, PartialEq, Eq)]
#[allow(missing_docs)] // The papers have them.
pub enum Refusal {
    OutputTooShort,
    SlotNotTaken,
    NotAFrame,
    UnknownTag,
    BadLength,
    BadName,
    BadVersions,
    NotServed,
    /// With what the flag test answered.
    BadFlags(FlagFlaw),
    AlreadyConnected,
    BadCookie,
    PeerTaken,
    NoFreeSlot,
    UnknownStatus,
    WrongDigest,
    Declined,
    ZeroCreation,
    Ambiguous,
}

impl Refusal {
    /// The number in the papers.
    pub fn number(self) -> u32 {
        match self {
            Refusal::OutputTooShort => 1,
            Refusal::SlotNotTaken => 2,
            Refusal::NotAFrame => 3,
            Refusal::UnknownTag => 4,
            Refusal::BadLength => 5,
            Refusal::BadName => 6,
            Refusal::BadVersions => 7,
            Refusal::NotServed => 8,
            Refusal::BadFlags(_) => 9,
            Refusal::AlreadyConnected => 10,
            Refusal::BadCookie => 11,
            Refusal::PeerTaken => 12,
            Refusal::NoFreeSlot => 13,
            Refusal::UnknownStatus => 14,
            Refusal::WrongDigest => 15,
            Refusal::Declined => 16,
            Refusal::ZeroCreation => 17,
            Refusal::Ambiguous => 20,
        }
    }
}

impl From<FlagFlaw> for Refusal {
    fn from(flaw: FlagFlaw) -> Refusal {
        Refusal::BadFlags(flaw)
    }
}
