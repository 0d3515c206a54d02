//! The numbered refusals.

use std::error::Error;
use std::fmt;

use crate::FlagFlaw;

/// Why a call was refused. Each has its number in the specification (01, and 20 of 02).
///
/// A refused call has written no output, and nothing else has changed; but a message that is refused
/// may have freed the slot that it came in on, which [`Refused`] tells.
///
/// ```
/// use birkenschuh::{Refusal, Registry};
///
/// let refusal = Registry::new(4369, 0).unwrap_err();
/// assert_eq!(refusal, Refusal::ZeroCreation);
/// assert_eq!(refusal.number(), 17);
/// assert_eq!(refusal.to_string(), "the first creation is 0");
/// ```
#[derive(Clone, Copy, Debug, PartialEq, Eq, PartialOrd, Ord, Hash)]
pub enum Refusal {
    /// The lent output is shorter than the call needs.
    OutputTooShort,
    /// The slot's number is not below 32, or the slot is free.
    SlotNotTaken,
    /// The lent bytes are not exactly one frame.
    NotAFrame,
    /// The first byte of a body is not served, or not at this stage; or a reply is another's.
    UnknownTag,
    /// The length disagrees with the fields, or the extra field has more than 128 bytes; or a NAMES
    /// reply has no reading.
    BadLength,
    /// The name breaks its rule, or is not the expected one.
    BadName,
    /// The versions break their rule: lowest at most highest, lowest at most 6, highest at least 5.
    BadVersions,
    /// A DUMP, KILL or STOP request.
    NotServed,
    /// A required flag (bits 2, 8, 24, 25 and 34) is clear, or bit 33 is set: which, is told.
    BadFlags(FlagFlaw),
    /// A message on a slot that is connected.
    AlreadyConnected,
    /// The cookie is empty or has more than 255 bytes.
    BadCookie,
    /// A start towards this node itself, or towards a peer that has a slot.
    PeerTaken,
    /// All 32 slots are taken.
    NoFreeSlot,
    /// The status word is not one of this stage.
    UnknownStatus,
    /// The peer's digest is wrong: it does not know the cookie.
    WrongDigest,
    /// The peer answered `nok` or `not_allowed`.
    Declined,
    /// A registry's first creation must not be 0.
    ZeroCreation,
    /// A NAMES reply that can be read in more than one way: a name may hold what looks like lines.
    Ambiguous,
}

impl Refusal {
    /// All refusals that are told: those that carry nothing else, in the order of their numbers, and
    /// 9 with each [`FlagFlaw`].
    pub fn all() -> impl Iterator<Item = Refusal> {
        let plain = (1..=20).filter_map(Refusal::plain);
        plain.chain(FlagFlaw::ALL.map(Refusal::BadFlags))
    }

    /// The number of this refusal, 1 to 17 or 20.
    pub fn number(self) -> u32 {
        match self {
            Refusal::OutputTooShort => 1,
            Refusal::SlotNotTaken => 2,
            Refusal::NotAFrame => 3,
            Refusal::UnknownTag => 4,
            Refusal::BadLength => 5,
            Refusal::BadName => 6,
            Refusal::BadVersions => 7,
            Refusal::NotServed => 8,
            Refusal::BadFlags(_) => 9,
            Refusal::AlreadyConnected => 10,
            Refusal::BadCookie => 11,
            Refusal::PeerTaken => 12,
            Refusal::NoFreeSlot => 13,
            Refusal::UnknownStatus => 14,
            Refusal::WrongDigest => 15,
            Refusal::Declined => 16,
            Refusal::ZeroCreation => 17,
            Refusal::Ambiguous => 20,
        }
    }

    /// The refusal of this number, if it is one that carries nothing else.
    fn plain(number: u32) -> Option<Refusal> {
        Some(match number {
            1 => Refusal::OutputTooShort,
            2 => Refusal::SlotNotTaken,
            3 => Refusal::NotAFrame,
            4 => Refusal::UnknownTag,
            5 => Refusal::BadLength,
            6 => Refusal::BadName,
            7 => Refusal::BadVersions,
            8 => Refusal::NotServed,
            10 => Refusal::AlreadyConnected,
            11 => Refusal::BadCookie,
            12 => Refusal::PeerTaken,
            13 => Refusal::NoFreeSlot,
            14 => Refusal::UnknownStatus,
            15 => Refusal::WrongDigest,
            16 => Refusal::Declined,
            17 => Refusal::ZeroCreation,
            20 => Refusal::Ambiguous,
            _ => return None,
        })
    }

    /// What the library's number means, in a call that does not test flags: 0 is no refusal.
    pub(crate) fn check(number: u32) -> Result<(), Refusal> {
        if number == 0 {
            return Ok(());
        }
        match Refusal::plain(number) {
            Some(refusal) => Err(refusal),
            None => unreachable!("the library gave the refusal {number}"),
        }
    }

    /// The same in a call that tests flags, with the two numbers that it tells beside.
    pub(crate) fn check_flags(number: u32, missing: u32, lowest: u32) -> Result<(), Refusal> {
        match number {
            9 => Err(Refusal::BadFlags(FlagFlaw::of(missing, lowest))),
            _ => Refusal::check(number),
        }
    }
}

impl fmt::Display for Refusal {
    fn fmt(&self, f: &mut fmt::Formatter<'_>) -> fmt::Result {
        let text = match self {
            Refusal::BadFlags(flaw) => return flaw.fmt(f),
            Refusal::OutputTooShort => "the output is shorter than the call needs",
            Refusal::SlotNotTaken => "the slot is free, or there is no slot of this number",
            Refusal::NotAFrame => "the bytes are not exactly one frame",
            Refusal::UnknownTag => "the first byte is not a tag that is served here",
            Refusal::BadLength => "the length disagrees with the fields, or extra is too long",
            Refusal::BadName => "the name breaks its rule, or is not the expected one",
            Refusal::BadVersions => "the versions break their rule",
            Refusal::NotServed => "DUMP, KILL and STOP are not served",
            Refusal::AlreadyConnected => "the slot is already connected",
            Refusal::BadCookie => "the cookie is empty or longer than 255 bytes",
            Refusal::PeerTaken => "the peer is this node itself, or it already has a slot",
            Refusal::NoFreeSlot => "all slots are taken",
            Refusal::UnknownStatus => "the status word is unknown",
            Refusal::WrongDigest => "the digest is wrong",
            Refusal::Declined => "the peer declined",
            Refusal::ZeroCreation => "the first creation is 0",
            Refusal::Ambiguous => "the reply can be read in more than one way",
        };
        f.write_str(text)
    }
}

impl Error for Refusal {}

/// Why a message was refused, and what became of its slot.
///
/// ```
/// use birkenschuh::{Cookies, Endpoint, Refusal, ENDPOINT_OUTPUT, REQUIRED_FLAGS};
///
/// let mut endpoint = Endpoint::new(b"a@b", REQUIRED_FLAGS, 7)?;
/// let slot = endpoint.arrive()?;
/// let cookies = Cookies { own: b"", standard: b"monster" };
/// let mut out = [0; ENDPOINT_OUTPUT];
/// let refused = endpoint.message(slot, b"\x00\x01?", 0, cookies, &mut out).unwrap_err();
/// assert_eq!(refused.refusal, Refusal::UnknownTag);
/// assert!(refused.slot_freed); // the host closes the connection, and does not call `close`
/// # Ok::<(), birkenschuh::Refusal>(())
/// ```
#[derive(Clone, Copy, Debug, PartialEq, Eq, Hash)]
pub struct Refused {
    /// Why.
    pub refusal: Refusal,
    /// Whether the slot is free now by this message. If not, nothing has changed.
    pub slot_freed: bool,
}

impl fmt::Display for Refused {
    fn fmt(&self, f: &mut fmt::Formatter<'_>) -> fmt::Result {
        self.refusal.fmt(f)
    }
}

impl Error for Refused {
    fn source(&self) -> Option<&(dyn Error + 'static)> {
        Some(&self.refusal)
    }
}

impl From<Refused> for Refusal {
    fn from(refused: Refused) -> Refusal {
        refused.refusal
    }
}

#[cfg(test)]
mod tests {
    use super::*;

    #[test]
    fn numbers_are_those_of_the_papers() {
        let mut numbers: Vec<u32> = Refusal::all().map(Refusal::number).collect();
        numbers.sort();
        numbers.dedup();
        assert_eq!(numbers, (1..=17).chain([20]).collect::<Vec<u32>>());
        assert_eq!(Refusal::check_flags(0, 0, 0), Ok(()));
        for refusal in Refusal::all() {
            let (missing, lowest) = match refusal {
                Refusal::BadFlags(flaw) => flaw.values(),
                _ => (0, 0),
            };
            let told = Refusal::check_flags(refusal.number(), missing, lowest);
            assert_eq!(told, Err(refusal));
        }
    }

    #[test]
    fn messages_are_single_lines_and_all_different() {
        let mut messages: Vec<String> = Refusal::all().map(|it| it.to_string()).collect();
        assert!(messages
            .iter()
            .all(|text| !text.is_empty() && !text.contains('\n')));
        messages.sort();
        messages.dedup();
        assert_eq!(messages.len(), Refusal::all().count());
    }
}
