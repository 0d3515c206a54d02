//! 02, P3: "how many required bits are missing, and the lowest of them by its number, or that bit 33
//! was set; missing bits are told first".

/// The bits that must be set, in the order of their numbers.
const REQUIRED: [u8; 5] = [2, 8, 24, 25, 34];
/// The bit that must be clear: a dynamic name is asked for.
const NAME_ME: u8 = 33;

/// What the flag test answers of flags that are not good.
#[derive(Clone, Copy, Debug, PartialEq, Eq)]
#[allow(missing_docs)] // 02 has them.
pub enum FlagFlaw {
    Missing { count: u8, lowest: u8 },
    NameMe,
}

impl FlagFlaw {
    /// The count and the lowest; where none is missing, 0 and the number of the bit that was set.
    pub fn values(self) -> (u32, u32) {
        match self {
            FlagFlaw::Missing { count, lowest } => (count.into(), lowest.into()),
            FlagFlaw::NameMe => (0, NAME_ME.into()),
        }
    }
}

fn is_set(flags: u64, bit: u8) -> bool {
    flags / 2u64.pow(bit.into()) % 2 == 1
}

/// The flag test: nothing is wrong, or what is.
pub fn test_flags(flags: u64) -> Result<(), FlagFlaw> {
    let mut missing = REQUIRED.iter().filter(|bit| !is_set(flags, **bit));
    match missing.next() {
        Some(&lowest) => Err(FlagFlaw::Missing {
            count: 1 + missing.count() as u8,
            lowest,
        }),
        None if is_set(flags, NAME_ME) => Err(FlagFlaw::NameMe),
        None => Ok(()),
    }
}
