//! All that a making and a message tell, in the header's numbers, whoever told it.

use birkenschuh::ffi::{bks_answered, bks_made};
use birkenschuh::{Answered, FlagFlaw, Refusal, Refused, Stage, SLOTS};

/// A refusal's number, how many required flags are missing, and the lowest of them.
#[derive(Clone, Copy, Debug, Default, PartialEq, Eq)]
pub struct Numbers {
    pub refusal: u32,
    pub missing: u32,
    pub lowest: u32,
}

/// What a making tells, and whether it has written the state.
#[derive(Clone, Copy, Debug, PartialEq, Eq)]
pub struct Made {
    pub numbers: Numbers,
    pub wrote: bool,
}

/// What a message tells.
#[derive(Clone, Copy, Debug, PartialEq, Eq)]
pub struct Told {
    pub numbers: Numbers,
    pub stage: u32,
    pub freed: usize,
    pub ended: u32,
    pub written: usize,
}

impl From<Refusal> for Numbers {
    fn from(refusal: Refusal) -> Numbers {
        let (missing, lowest) = match refusal {
            Refusal::BadFlags(FlagFlaw::Missing { count, lowest }) => (count.into(), lowest.into()),
            Refusal::BadFlags(FlagFlaw::NameMe) => (0, 33),
            _ => (0, 0),
        };
        Numbers {
            refusal: refusal.number(),
            missing,
            lowest,
        }
    }
}

impl From<model::Refusal> for Numbers {
    fn from(refusal: model::Refusal) -> Numbers {
        let (missing, lowest) = match refusal {
            model::Refusal::BadFlags(flaw) => flaw.values(),
            _ => (0, 0),
        };
        Numbers {
            refusal: refusal.number(),
            missing,
            lowest,
        }
    }
}

impl From<bks_made> for Numbers {
    fn from(told: bks_made) -> Numbers {
        Numbers {
            refusal: told.refusal,
            missing: told.missing,
            lowest: told.lowest,
        }
    }
}

impl Made {
    /// What is to be told of this answer, by the safe wrapper or the model.
    pub fn of<T>(answer: Result<T, impl Into<Numbers>>) -> Made {
        let numbers = answer.map_or_else(Into::into, |_| Numbers::default());
        Made {
            numbers,
            wrote: numbers.refusal == 0,
        }
    }
}

impl Told {
    /// Nothing but a refusal, and whether it ended the slot.
    pub fn refused(refusal: impl Into<Numbers>, ended: bool) -> Told {
        Told {
            numbers: refusal.into(),
            stage: 0,
            freed: SLOTS,
            ended: ended.into(),
            written: 0,
        }
    }

    /// An answer.
    pub fn answered(stage: Stage, freed: Option<usize>, written: usize) -> Told {
        Told {
            numbers: Numbers::default(),
            stage: stage as u32,
            freed: freed.unwrap_or(SLOTS),
            ended: (stage == Stage::Free).into(),
            written,
        }
    }
}

impl From<Result<Answered, Refused>> for Told {
    fn from(answer: Result<Answered, Refused>) -> Told {
        match answer {
            Ok(told) => Told::answered(told.stage, told.freed, told.written),
            Err(refused) => Told::refused(refused.refusal, refused.slot_freed),
        }
    }
}

impl From<bks_answered> for Told {
    fn from(told: bks_answered) -> Told {
        Told {
            numbers: Numbers {
                refusal: told.refusal,
                missing: told.missing,
                lowest: told.lowest,
            },
            stage: told.stage,
            freed: told.freed as usize,
            ended: told.ended,
            written: told.written,
        }
    }
}

/// What flags come to, in a few words: these numbers of a refusal with 9, and whether bit 33 is set
/// beside missing ones.
pub fn flaw(numbers: Numbers, flags: u64) -> String {
    let Numbers {
        missing, lowest, ..
    } = numbers;
    match (missing, flags >> 33 & 1) {
        (0, _) => format!("bit {lowest}"),
        (_, 0) => format!("{missing} missing, lowest {lowest}"),
        _ => format!("{missing} missing, lowest {lowest}, bit 33 set"),
    }
}
