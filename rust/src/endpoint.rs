//! The distribution handshake.

use std::collections::BTreeMap;
use std::fmt;

use crate::{ffi, version, Own, Refusal, Refused, Slot, Stage};

/// The output that [`Endpoint::start`] and [`Endpoint::message`] need.
pub const ENDPOINT_OUTPUT: usize = 300;

/// How many bytes an endpoint has.
pub const ENDPOINT_SIZE: usize = size_of::<ffi::bks_endpoint>();

/// How many peers an endpoint can have at a time, connected or on the way there.
pub const SLOTS: usize = 32;

/// A node's end of its handshakes: its full name, flags and creation, and a [`Slot`] for each peer.
///
/// Two endpoints joined in memory:
///
/// ```
/// use birkenschuh::{Cookies, Endpoint, Stage, ENDPOINT_OUTPUT, REQUIRED_FLAGS};
///
/// let cookies = Cookies { own: b"", standard: b"monster" };
/// let mut a = Endpoint::new(b"a@host", REQUIRED_FLAGS, 7)?;
/// let mut b = Endpoint::new(b"b@host", REQUIRED_FLAGS, 8)?;
/// let (mut from_a, mut from_b) = ([0; ENDPOINT_OUTPUT], [0; ENDPOINT_OUTPUT]);
///
/// // a starts: its name message.
/// let started = a.start(b"b@host", &mut from_a)?;
/// let at_a = started.slot;
/// let at_b = b.arrive()?;
///
/// // b answers with two frames, its status and its challenge. (A host takes challenges from a good
/// // source of random numbers.)
/// let answered = b.message(at_b, &from_a[..started.written], 2_026, cookies, &mut from_b)?;
/// let (status, challenge) = from_b[..answered.written].split_at(5);
/// assert_eq!(status, b"\x00\x03sok");
///
/// // a reads both and proves that it knows the cookie; b does so in turn.
/// a.message(at_a, status, 0, cookies, &mut from_a)?;
/// let reply = a.message(at_a, challenge, 1_507, cookies, &mut from_a)?.written;
/// let answered = b.message(at_b, &from_a[..reply], 0, cookies, &mut from_b)?;
/// assert_eq!(answered.stage, Stage::Connected);
/// let answered = a.message(at_a, &from_b[..answered.written], 0, cookies, &mut from_a)?;
/// assert_eq!(answered.stage, Stage::Connected);
/// # Ok::<(), birkenschuh::Refusal>(())
/// ```
///
/// Two endpoints are equal if they hold the same, slot by slot.
#[derive(Clone, PartialEq, Eq)]
pub struct Endpoint {
    // Some 9 KB: kept in one place instead of moved about.
    state: Box<ffi::bks_endpoint>,
}

impl Endpoint {
    /// An endpoint of the full name `name` ("name@host", 3 to 255 bytes) without peers.
    ///
    /// Refused: [`Refusal::BadName`], [`Refusal::BadFlags`].
    ///
    /// # Panics
    /// If the library that was linked is of another version: see [`check`](crate::check).
    pub fn new(name: &[u8], flags: u64, creation: u32) -> Result<Endpoint, Refusal> {
        version::demand();
        let mut state = Box::<ffi::bks_endpoint>::new_uninit();
        // SAFETY: the first pointer is to memory of an endpoint's size, and `name` is readable for
        // its length.
        let made = unsafe {
            ffi::bks_endpoint_new(
                state.as_mut_ptr(),
                name.as_ptr(),
                name.len(),
                flags,
                creation,
            )
        };
        Refusal::check_flags(made.refusal, made.missing, made.lowest)?;
        // SAFETY: a call that is not refused has written the state.
        let state = unsafe { state.assume_init() };
        Ok(Endpoint { state })
    }

    /// Begins a handshake as initiator, towards the full name `name`: takes a slot and writes the
    /// name message to `out`, which must have [`ENDPOINT_OUTPUT`] bytes.
    ///
    /// Refused, and then nothing is changed: [`Refusal::OutputTooShort`], [`Refusal::BadName`],
    /// [`Refusal::PeerTaken`], [`Refusal::NoFreeSlot`].
    pub fn start(&mut self, name: &[u8], out: &mut [u8]) -> Result<Started, Refusal> {
        // SAFETY: the state is an endpoint, `name` is readable and `out` writable for its length.
        let answer = unsafe {
            ffi::bks_endpoint_start(
                &mut *self.state,
                name.as_ptr(),
                name.len(),
                out.as_mut_ptr(),
                out.len(),
            )
        };
        Refusal::check(answer.refusal)?;
        Ok(Started {
            slot: answer.slot as usize,
            written: answer.written,
        })
    }

    /// Begins a handshake as acceptor: takes a slot that awaits the peer's name message.
    ///
    /// Refused, and then nothing is changed: [`Refusal::NoFreeSlot`].
    pub fn arrive(&mut self) -> Result<usize, Refusal> {
        // SAFETY: the state is an endpoint.
        let answer = unsafe { ffi::bks_endpoint_arrive(&mut *self.state) };
        Refusal::check(answer.refusal)?;
        Ok(answer.slot as usize)
    }

    /// The slot's connection has ended: frees the slot.
    ///
    /// Refused, and then nothing is changed: [`Refusal::SlotNotTaken`].
    pub fn close(&mut self, slot: usize) -> Result<(), Refusal> {
        // SAFETY: the state is an endpoint.
        Refusal::check(unsafe { ffi::bks_endpoint_close(&mut *self.state, number(slot)) })
    }

    /// Takes in one message that came in on `slot`, and writes what is to be sent back to `out`,
    /// which must have [`ENDPOINT_OUTPUT`] bytes. `challenge` is a fresh random number; it is used
    /// where the answer holds a challenge.
    ///
    /// A refusal tells whether the slot was freed. It is kept with [`Refusal::OutputTooShort`],
    /// [`Refusal::SlotNotTaken`], [`Refusal::AlreadyConnected`] and [`Refusal::BadCookie`], and freed
    /// with [`Refusal::NotAFrame`], [`Refusal::UnknownTag`], [`Refusal::BadLength`],
    /// [`Refusal::BadName`], [`Refusal::BadFlags`], [`Refusal::UnknownStatus`],
    /// [`Refusal::WrongDigest`] and [`Refusal::Declined`].
    pub fn message(
        &mut self,
        slot: usize,
        frame: &[u8],
        challenge: u32,
        cookies: Cookies<'_>,
        out: &mut [u8],
    ) -> Result<Answered, Refused> {
        // SAFETY: the state is an endpoint, `frame` and both cookies are readable and `out` is
        // writable for its length.
        let answer = unsafe {
            ffi::bks_endpoint_message(
                &mut *self.state,
                number(slot),
                frame.as_ptr(),
                frame.len(),
                challenge,
                cookies.own.as_ptr(),
                cookies.own.len(),
                cookies.standard.as_ptr(),
                cookies.standard.len(),
                out.as_mut_ptr(),
                out.len(),
            )
        };
        let told = Refusal::check_flags(answer.refusal, answer.missing, answer.lowest);
        told.map_err(|refusal| Refused {
            refusal,
            slot_freed: answer.ended != 0,
        })?;
        let freed = answer.freed as usize;
        Ok(Answered {
            stage: Stage::from_number(answer.stage),
            freed: (freed < SLOTS).then_some(freed),
            written: answer.written,
        })
    }

    /// What is recorded in a slot. One that is free, or that there is none of, is all zero.
    pub fn slot(&self, at: usize) -> Slot {
        // SAFETY: the state is an endpoint.
        let slot = unsafe { ffi::bks_endpoint_slot(&*self.state, number(at)) };
        Slot {
            stage: Stage::from_number(slot.stage),
            name: slot.name[..usize::from(slot.name_len)].to_vec(),
            flags: slot.flags,
            creation: slot.creation,
            challenge: slot.challenge,
        }
    }

    /// The endpoint's own name, flags and creation.
    pub fn own(&self) -> Own {
        // SAFETY: the state is an endpoint.
        let own = unsafe { ffi::bks_endpoint_own(&*self.state) };
        Own {
            name: own.name[..usize::from(own.name_len)].to_vec(),
            flags: own.flags,
            creation: own.creation,
        }
    }

    /// The endpoint as it lies in memory, to be stored or compared. It has no padding, and holds no
    /// byte of a cookie or of a digest: equal endpoints are equal bytes.
    pub fn as_bytes(&self) -> &[u8; ENDPOINT_SIZE] {
        &self.state.bytes
    }

    /// The endpoint that [`as_bytes`](Endpoint::as_bytes) of this version showed. Other bytes make
    /// an endpoint that nobody described: its calls are safe, but what 01 promises does not hold.
    ///
    /// # Panics
    /// If the library that was linked is of another version: see [`check`](crate::check).
    pub fn from_bytes(bytes: &[u8; ENDPOINT_SIZE]) -> Endpoint {
        version::demand();
        let state = Box::new(ffi::bks_endpoint { bytes: *bytes });
        Endpoint { state }
    }
}

/// The boundary's slot numbers have 32 bits; a larger one is no slot either way.
fn number(slot: usize) -> u32 {
    u32::try_from(slot).unwrap_or(u32::MAX)
}

impl fmt::Debug for Endpoint {
    fn fmt(&self, f: &mut fmt::Formatter<'_>) -> fmt::Result {
        let taken = (0..SLOTS)
            .map(|at| (at, self.slot(at)))
            .filter(|(_, slot)| slot.stage != Stage::Free);
        let slots = taken.collect::<BTreeMap<usize, Slot>>();
        f.debug_struct("Endpoint")
            .field("own", &self.own())
            .field("slots", &slots)
            .finish()
    }
}

/// The cookies that a message may use: the peer's own if it has any bytes, otherwise the standard
/// one. The cookie that is used must have 1 to 255 bytes.
///
/// A side proves that it knows the cookie by the MD5 digest of the cookie's bytes followed by the
/// other's challenge in decimal, as Erlang/OTP has it. No cookie is kept.
///
/// ```
/// use birkenschuh::Cookies;
///
/// let cookies = Cookies { own: b"", standard: b"monster" }; // no cookie of this peer's own
/// assert_eq!(format!("{cookies:?}"), "Cookies"); // a secret does not belong in a log
/// ```
#[derive(Clone, Copy)]
pub struct Cookies<'a> {
    /// The cookie kept for this peer alone, or nothing.
    pub own: &'a [u8],
    /// The cookie for all other peers.
    pub standard: &'a [u8],
}

impl fmt::Debug for Cookies<'_> {
    fn fmt(&self, f: &mut fmt::Formatter<'_>) -> fmt::Result {
        f.write_str("Cookies")
    }
}

/// What [`Endpoint::start`] tells.
///
/// ```
/// use birkenschuh::{Endpoint, Started, ENDPOINT_OUTPUT, REQUIRED_FLAGS};
///
/// let mut endpoint = Endpoint::new(b"a@b", REQUIRED_FLAGS, 7)?;
/// let started = endpoint.start(b"c@d", &mut [0; ENDPOINT_OUTPUT])?;
/// assert_eq!(started, Started { slot: 0, written: 20 });
/// # Ok::<(), birkenschuh::Refusal>(())
/// ```
#[derive(Clone, Copy, Debug, PartialEq, Eq)]
pub struct Started {
    /// The slot that was taken.
    pub slot: usize,
    /// How many output bytes were written.
    pub written: usize,
}

/// What [`Endpoint::message`] tells.
///
/// ```
/// use birkenschuh::{Answered, Cookies, Endpoint, Stage, ENDPOINT_OUTPUT, REQUIRED_FLAGS};
///
/// let mut out = [0; ENDPOINT_OUTPUT];
/// let mut endpoint = Endpoint::new(b"a@b", REQUIRED_FLAGS, 7)?;
/// let slot = endpoint.start(b"c@d", &mut out)?.slot;
/// let cookies = Cookies { own: b"", standard: b"monster" };
/// let answered = endpoint.message(slot, b"\x00\x03sok", 0, cookies, &mut out)?;
/// assert_eq!(answered, Answered { stage: Stage::AwaitsChallenge, freed: None, written: 0 });
/// # Ok::<(), birkenschuh::Refusal>(())
/// ```
#[derive(Clone, Copy, Debug, PartialEq, Eq)]
pub struct Answered {
    /// The slot's new stage. [`Stage::Free`] means that the slot is free now, and that the host
    /// closes its connection after sending the output.
    pub stage: Stage,
    /// Another slot that this message freed: the host closes its connection too.
    pub freed: Option<usize>,
    /// How many output bytes were written.
    pub written: usize,
}
