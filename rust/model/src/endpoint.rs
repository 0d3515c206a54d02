//! 01, "The gate", with the digest of 02, P4.

use crate::bytes::{Short, Writer};
use crate::{md5, test_flags, Refusal, Slot, Stage};

/// The output that start and message need.
pub const ENDPOINT_OUTPUT: usize = 300;

const SLOTS: usize = 32;

/// The two cookies lent with a message.
#[derive(Clone, Copy, Debug)]
#[allow(missing_docs)] // 01 has them.
pub struct Cookies<'a> {
    pub own: &'a [u8],
    pub standard: &'a [u8],
}

impl<'a> Cookies<'a> {
    fn chosen(self) -> &'a [u8] {
        if self.own.is_empty() {
            self.standard
        } else {
            self.own
        }
    }
}

/// What a start tells.
#[derive(Clone, Copy, Debug, PartialEq, Eq)]
#[allow(missing_docs)] // 01 has them.
pub struct Started {
    pub slot: usize,
    pub written: usize,
}

/// What a message tells.
#[derive(Clone, Copy, Debug, PartialEq, Eq)]
#[allow(missing_docs)] // 01 has them.
pub struct Answered {
    pub stage: Stage,
    pub freed: Option<usize>,
    pub written: usize,
}

/// The endpoint: name, flags, creation and 32 slots.
///
/// ```
/// let mut endpoint = model::Endpoint::new(b"a@b", 0x4_0300_0104, 7).unwrap();
/// let mut out = [0; model::ENDPOINT_OUTPUT];
/// assert_eq!(endpoint.start(b"c@d", &mut out).unwrap().written, 20);
/// ```
#[derive(Clone, Debug)]
pub struct Endpoint {
    pub(crate) name: Short<255>,
    pub(crate) flags: u64,
    pub(crate) creation: u32,
    pub(crate) slots: [Slot; SLOTS],
}

/// 3 to 255 bytes with exactly one "@", neither first nor last.
pub fn is_full_name(name: &[u8]) -> bool {
    let mut parts = name.split(|&byte| byte == b'@');
    let parts = (parts.next(), parts.next(), parts.next());
    name.len() <= 255
        && matches!(parts, (Some(alive), Some(host), None) if !alive.is_empty() && !host.is_empty())
}

/// MD5 of the cookie bytes followed by the challenge as decimal text.
pub fn digest(challenge: u32, cookie: &[u8]) -> [u8; 16] {
    let digits = challenge.to_string();
    md5(&[cookie, digits.as_bytes()].concat())
}

impl Endpoint {
    /// An endpoint with all slots free.
    pub fn new(name: &[u8], flags: u64, creation: u32) -> Result<Endpoint, Refusal> {
        if !is_full_name(name) {
            return Err(Refusal::BadName);
        }
        test_flags(flags)?;
        Ok(Endpoint {
            name: Short::new(name),
            flags,
            creation,
            slots: Default::default(),
        })
    }

    /// Takes a slot towards `name` and writes the name message.
    pub fn start(&mut self, name: &[u8], out: &mut [u8]) -> Result<Started, Refusal> {
        if out.len() < ENDPOINT_OUTPUT {
            return Err(Refusal::OutputTooShort);
        }
        if !is_full_name(name) {
            return Err(Refusal::BadName);
        }
        if *name == *self.name || self.slots.iter().any(|slot| *slot.name == *name) {
            return Err(Refusal::PeerTaken);
        }
        let slot = self.free_slot()?;
        self.slots[slot] = Slot {
            stage: Stage::AwaitsStatus,
            name: Short::new(name),
            ..Slot::default()
        };
        let mut out = Writer::new(out);
        self.put_own(None, &mut out);
        let written = out.written();
        Ok(Started { slot, written })
    }

    /// Takes a slot that awaits a name.
    pub fn arrive(&mut self) -> Result<usize, Refusal> {
        let slot = self.free_slot()?;
        self.slots[slot].stage = Stage::AwaitsName;
        Ok(slot)
    }

    /// Frees a slot.
    pub fn close(&mut self, slot: usize) -> Result<(), Refusal> {
        match self.slots.get_mut(slot) {
            Some(slot) if slot.stage != Stage::Free => *slot = Slot::default(),
            _ => return Err(Refusal::SlotNotTaken),
        }
        Ok(())
    }

    /// What is recorded in a slot.
    pub fn slot(&self, at: usize) -> &Slot {
        &self.slots[at]
    }

    /// Takes in a message on a slot.
    pub fn message(
        &mut self,
        slot: usize,
        frame: &[u8],
        challenge: u32,
        cookies: Cookies<'_>,
        out: &mut [u8],
    ) -> Result<Answered, Refusal> {
        if out.len() < ENDPOINT_OUTPUT {
            return Err(Refusal::OutputTooShort);
        }
        let stage = self.slots.get(slot).map_or(Stage::Free, |slot| slot.stage);
        let cookie = cookies.chosen();
        match stage {
            Stage::Free => return Err(Refusal::SlotNotTaken),
            Stage::Connected => return Err(Refusal::AlreadyConnected),
            _ if stage.needs_cookie() && !(1..=255).contains(&cookie.len()) => {
                return Err(Refusal::BadCookie)
            }
            _ => (),
        }
        let mut out = Writer::new(out);
        let step = self.step(slot, frame, challenge, cookie, &mut out);
        // Every refusal from here on frees the slot, and so do some answers.
        let (stage, freed) = step.inspect_err(|_| self.slots[slot] = Slot::default())?;
        if stage == Stage::Free {
            self.slots[slot] = Slot::default();
        } else {
            self.slots[slot].stage = stage;
        }
        Ok(Answered {
            stage,
            freed,
            written: out.written(),
        })
    }

    fn free_slot(&self) -> Result<usize, Refusal> {
        let is_free = |slot: &Slot| slot.stage == Stage::Free;
        self.slots
            .iter()
            .position(is_free)
            .ok_or(Refusal::NoFreeSlot)
    }

    /// Our name message or, with a challenge, our challenge message.
    pub(crate) fn put_own(&self, challenge: Option<u32>, out: &mut Writer) {
        let head = if challenge.is_some() { 19 } else { 15 };
        let length = (head + self.name.len()) as u16;
        out.put(&length.to_be_bytes())
            .put(b"N")
            .put(&self.flags.to_be_bytes());
        if let Some(challenge) = challenge {
            out.put(&challenge.to_be_bytes());
        }
        out.put(&self.creation.to_be_bytes())
            .put(&(self.name.len() as u16).to_be_bytes())
            .put(&self.name);
    }
}
