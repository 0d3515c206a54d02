//! The flags that nodes tell each other in a handshake.

use std::error::Error;
use std::fmt;

/// The flags that an endpoint, and every peer, must have: bits 2, 8, 24, 25 and 34.
///
/// They are what the specification requires (02, P3). Real nodes require more: see `docs/INTEROP.md`.
pub const REQUIRED_FLAGS: u64 = 0x4_0300_0104;

/// What is wrong with flags: what [`Refusal::BadFlags`](crate::Refusal::BadFlags) carries. Missing
/// flags are told first.
///
/// ```
/// use birkenschuh::{Endpoint, FlagFlaw, Refusal, REQUIRED_FLAGS};
///
/// let without_34 = REQUIRED_FLAGS & !(1 << 34);
/// let refusal = Endpoint::new(b"a@b", without_34, 7).unwrap_err();
/// assert_eq!(refusal, Refusal::BadFlags(FlagFlaw::Missing { count: 1, lowest: 34 }));
/// assert_eq!(refusal.number(), 9);
/// assert_eq!(refusal.to_string(), "1 required flag is missing: DFLAG_V4_NC (bit 34)");
///
/// let refusal = Endpoint::new(b"a@b", REQUIRED_FLAGS | 1 << 33, 7).unwrap_err();
/// assert_eq!(refusal, Refusal::BadFlags(FlagFlaw::NameMe));
/// ```
#[derive(Clone, Copy, Debug, PartialEq, Eq, PartialOrd, Ord, Hash)]
pub enum FlagFlaw {
    /// Required flags are clear. (Two bytes: a refusal is handed through every call.)
    Missing {
        /// How many of the five.
        count: u8,
        /// The lowest of them, by the number of its bit.
        lowest: u8,
    },
    /// No required flag is clear, but bit 33 (DFLAG_NAME_ME) is set: a dynamic name is asked for.
    NameMe,
}

impl FlagFlaw {
    /// All flaws that are told, in the order of the lowest missing flag and of the count.
    pub const ALL: [FlagFlaw; 16] = [
        missing(1, 2),
        missing(2, 2),
        missing(3, 2),
        missing(4, 2),
        missing(5, 2),
        missing(1, 8),
        missing(2, 8),
        missing(3, 8),
        missing(4, 8),
        missing(1, 24),
        missing(2, 24),
        missing(3, 24),
        missing(1, 25),
        missing(2, 25),
        missing(1, 34),
        FlagFlaw::NameMe,
    ];

    /// What the library tells beside refusal 9: how many are missing and the lowest, or 0 and 33.
    pub fn values(self) -> (u32, u32) {
        match self {
            FlagFlaw::Missing { count, lowest } => (count.into(), lowest.into()),
            FlagFlaw::NameMe => (0, 33),
        }
    }

    /// The protocol's own name of the lowest missing flag, or of bit 33.
    pub fn flag_name(self) -> &'static str {
        match self.values().1 {
            2 => "DFLAG_EXTENDED_REFERENCES",
            8 => "DFLAG_EXTENDED_PIDS_PORTS",
            24 => "DFLAG_HANDSHAKE_23",
            25 => "DFLAG_UNLINK_ID",
            33 => "DFLAG_NAME_ME",
            34 => "DFLAG_V4_NC",
            _ => "a flag that is not required",
        }
    }

    /// What the library's two numbers mean.
    pub(crate) fn of(missing: u32, lowest: u32) -> FlagFlaw {
        let mut all = FlagFlaw::ALL.into_iter();
        match all.find(|flaw| flaw.values() == (missing, lowest)) {
            Some(flaw) => flaw,
            None => unreachable!("the library gave {missing} missing flags, the lowest {lowest}"),
        }
    }
}

const fn missing(count: u8, lowest: u8) -> FlagFlaw {
    FlagFlaw::Missing { count, lowest }
}

impl fmt::Display for FlagFlaw {
    fn fmt(&self, f: &mut fmt::Formatter<'_>) -> fmt::Result {
        let (name, bit) = (self.flag_name(), self.values().1);
        match self {
            FlagFlaw::Missing { count: 1, .. } => {
                write!(f, "1 required flag is missing: {name} (bit {bit})")
            }
            FlagFlaw::Missing { count, .. } => {
                write!(
                    f,
                    "{count} required flags are missing, the lowest of them {name} (bit {bit})"
                )
            }
            FlagFlaw::NameMe => write!(f, "a dynamic name is asked for: {name} (bit {bit}) is set"),
        }
    }
}

impl Error for FlagFlaw {}

#[cfg(test)]
mod tests {
    use super::*;

    #[test]
    fn every_set_of_missing_flags_has_its_flaw() {
        let required: Vec<u32> = (0..64)
            .filter(|bit| REQUIRED_FLAGS >> bit & 1 == 1)
            .collect();
        assert_eq!(required, [2, 8, 24, 25, 34]);
        for set in 1..1u32 << required.len() {
            let lowest = required[set.trailing_zeros() as usize];
            let flaw = FlagFlaw::of(set.count_ones(), lowest);
            assert_eq!(flaw.values(), (set.count_ones(), lowest));
        }
        assert_eq!(FlagFlaw::of(0, 33), FlagFlaw::NameMe);
    }

    #[test]
    fn a_message_names_the_flag() {
        let told = FlagFlaw::of(3, 8).to_string();
        assert_eq!(
            told,
            "3 required flags are missing, the lowest of them DFLAG_EXTENDED_PIDS_PORTS (bit 8)"
        );
        let told = FlagFlaw::NameMe.to_string();
        assert_eq!(
            told,
            "a dynamic name is asked for: DFLAG_NAME_ME (bit 33) is set"
        );
    }
}
