//! The stages of a handshake, what a slot records of its peer, and what an endpoint is itself.

use std::fmt;

use crate::text::Text;

/// How far a slot's handshake has come.
///
/// ```
/// use birkenschuh::{Endpoint, Stage, REQUIRED_FLAGS};
///
/// let mut endpoint = Endpoint::new(b"a@b", REQUIRED_FLAGS, 7)?;
/// assert_eq!(endpoint.slot(0).stage, Stage::Free);
/// let slot = endpoint.arrive()?;
/// assert_eq!(endpoint.slot(slot).stage, Stage::AwaitsName);
/// # Ok::<(), birkenschuh::Refusal>(())
/// ```
#[derive(Clone, Copy, Debug, Default, PartialEq, Eq, PartialOrd, Ord, Hash)]
pub enum Stage {
    /// Nobody has this slot.
    #[default]
    Free = 0,
    /// Acceptor: the peer's name message is awaited.
    AwaitsName,
    /// Acceptor: told the peer that it is connected already; `true` or `false` is awaited.
    AwaitsAlive,
    /// Acceptor: the reply to our challenge is awaited.
    AwaitsReply,
    /// Initiator: the status is awaited.
    AwaitsStatus,
    /// Initiator: the peer's challenge is awaited.
    AwaitsChallenge,
    /// Initiator: the acknowledgement is awaited.
    AwaitsAck,
    /// Both sides have proved that they know the cookie.
    Connected,
}

impl Stage {
    /// All stages, in the order of their numbers.
    pub const ALL: [Stage; 8] = [
        Stage::Free,
        Stage::AwaitsName,
        Stage::AwaitsAlive,
        Stage::AwaitsReply,
        Stage::AwaitsStatus,
        Stage::AwaitsChallenge,
        Stage::AwaitsAck,
        Stage::Connected,
    ];

    /// What the library's number means.
    pub(crate) fn from_number(number: u32) -> Stage {
        match Stage::ALL.get(number as usize) {
            Some(&stage) => stage,
            None => unreachable!("the library gave the stage {number}"),
        }
    }
}

/// What is recorded of a peer. What has not been read or sent yet is zero or empty.
///
/// ```
/// use birkenschuh::{Endpoint, Slot, Stage, ENDPOINT_OUTPUT, REQUIRED_FLAGS};
///
/// let mut endpoint = Endpoint::new(b"a@b", REQUIRED_FLAGS, 7)?;
/// endpoint.start(b"c@d", &mut [0; ENDPOINT_OUTPUT])?;
/// let slot = endpoint.slot(0);
/// assert_eq!((slot.stage, slot.name.as_slice()), (Stage::AwaitsStatus, &b"c@d"[..]));
/// assert_eq!(endpoint.slot(1), Slot::default());
/// # Ok::<(), birkenschuh::Refusal>(())
/// ```
#[derive(Clone, Default, PartialEq, Eq)]
pub struct Slot {
    /// How far the handshake has come.
    pub stage: Stage,
    /// The peer's full name.
    pub name: Vec<u8>,
    /// The peer's flags.
    pub flags: u64,
    /// The peer's creation.
    pub creation: u32,
    /// The challenge that we sent.
    pub challenge: u32,
}

impl fmt::Debug for Slot {
    fn fmt(&self, f: &mut fmt::Formatter<'_>) -> fmt::Result {
        f.debug_struct("Slot")
            .field("stage", &self.stage)
            .field("name", &Text(&self.name))
            .field("flags", &format_args!("{:#x}", self.flags))
            .field("creation", &self.creation)
            .field("challenge", &self.challenge)
            .finish()
    }
}

/// What an endpoint was made with.
///
/// ```
/// use birkenschuh::{Endpoint, REQUIRED_FLAGS};
///
/// let own = Endpoint::new(b"a@b", REQUIRED_FLAGS, 7)?.own();
/// assert_eq!(format!("{own:?}"), r#"Own { name: "a@b", flags: 0x403000104, creation: 7 }"#);
/// # Ok::<(), birkenschuh::Refusal>(())
/// ```
#[derive(Clone, PartialEq, Eq)]
pub struct Own {
    /// The full name.
    pub name: Vec<u8>,
    /// The flags.
    pub flags: u64,
    /// The creation.
    pub creation: u32,
}

impl fmt::Debug for Own {
    fn fmt(&self, f: &mut fmt::Formatter<'_>) -> fmt::Result {
        f.debug_struct("Own")
            .field("name", &Text(&self.name))
            .field("flags", &format_args!("{:#x}", self.flags))
            .field("creation", &self.creation)
            .finish()
    }
}
