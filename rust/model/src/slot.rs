//! What the endpoint keeps of each peer.

use crate::Short;

/// How far a handshake has come.
#[derive(Clone, Copy, Debug, Default, PartialEq, Eq)]
#[allow(missing_docs)] // 01 has them.
pub enum Stage {
    #[default]
    Free = 0,
    AwaitsName,
    AwaitsAlive,
    AwaitsReply,
    AwaitsStatus,
    AwaitsChallenge,
    AwaitsAck,
    Connected,
}

impl Stage {
    /// A peer came to us and has told its name, but is not connected yet.
    pub(crate) fn is_accepting(self) -> bool {
        matches!(self, Stage::AwaitsAlive | Stage::AwaitsReply)
    }

    /// We went to the peer and are not connected yet.
    pub(crate) fn is_starting(self) -> bool {
        matches!(
            self,
            Stage::AwaitsStatus | Stage::AwaitsChallenge | Stage::AwaitsAck
        )
    }

    /// The next message has a digest to check, or asks for one.
    pub(crate) fn needs_cookie(self) -> bool {
        matches!(
            self,
            Stage::AwaitsReply | Stage::AwaitsChallenge | Stage::AwaitsAck
        )
    }
}

/// A slot; what is not recorded yet is zero or empty.
#[derive(Clone, Debug, Default)]
#[allow(missing_docs)] // 01 has them.
pub struct Slot {
    pub stage: Stage,
    pub name: Short<255>,
    pub flags: u64,
    pub creation: u32,
    pub challenge: u32,
}
