//! An endpoint through the safe wrapper or through the functions over pointers.

use std::ptr::{null, null_mut};

use birkenschuh::ffi::{self, bks_endpoint};
use birkenschuh::{Cookies, Endpoint, Own, Refusal, Slot, Stage, Started, ENDPOINT_SIZE};

use crate::calls::Message;
use crate::told::{Made, Told};

/// What lies in memory before an endpoint is made there.
const PATTERN: [u8; ENDPOINT_SIZE] = [0xa5; ENDPOINT_SIZE];

pub enum Face {
    Safe(Endpoint),
    Raw(Box<bks_endpoint>),
}

/// A run as pointer and length; an empty one as null.
fn lend(run: &[u8]) -> (*const u8, usize) {
    match run {
        [] => (null(), 0),
        _ => (run.as_ptr(), run.len()),
    }
}

fn lend_mut(run: &mut [u8]) -> (*mut u8, usize) {
    match run {
        [] => (null_mut(), 0),
        _ => (run.as_mut_ptr(), run.len()),
    }
}

/// What a raw call gave, unless it was refused.
fn unless<T>(refusal: u32, value: T) -> Result<T, u32> {
    match refusal {
        0 => Ok(value),
        refusal => Err(refusal),
    }
}

impl Face {
    /// An endpoint, unless that is refused, and what was told.
    pub fn new(raw: bool, name: &[u8], flags: u64, creation: u32) -> (Option<Face>, Made) {
        if !raw {
            let made = Endpoint::new(name, flags, creation);
            let told = Made::of(made.as_ref().map_err(|refusal| *refusal));
            return (made.ok().map(Face::Safe), told);
        }
        let (name, name_len) = lend(name);
        let mut state = Box::new(bks_endpoint { bytes: PATTERN });
        // SAFETY: the state is memory of an endpoint's size; the name is a slice, or empty.
        let told = unsafe { ffi::bks_endpoint_new(&mut *state, name, name_len, flags, creation) };
        let made = Made {
            numbers: told.into(),
            wrote: state.bytes != PATTERN,
        };
        ((told.refusal == 0).then_some(Face::Raw(state)), made)
    }

    pub fn start(&mut self, name: &[u8], out: &mut [u8]) -> Result<Started, u32> {
        let state = match self {
            Face::Safe(endpoint) => return endpoint.start(name, out).map_err(Refusal::number),
            Face::Raw(state) => &mut **state,
        };
        let ((name, name_len), (out, out_len)) = (lend(name), lend_mut(out));
        // SAFETY: the state is an endpoint; the runs are slices, or empty.
        let told = unsafe { ffi::bks_endpoint_start(state, name, name_len, out, out_len) };
        let started = Started {
            slot: told.slot as usize,
            written: told.written,
        };
        unless(told.refusal, started)
    }

    pub fn arrive(&mut self) -> Result<usize, u32> {
        match self {
            Face::Safe(endpoint) => endpoint.arrive().map_err(Refusal::number),
            Face::Raw(state) => {
                // SAFETY: the state is an endpoint.
                let told = unsafe { ffi::bks_endpoint_arrive(&mut **state) };
                unless(told.refusal, told.slot as usize)
            }
        }
    }

    pub fn close(&mut self, slot: usize) -> Result<(), u32> {
        match self {
            Face::Safe(endpoint) => endpoint.close(slot).map_err(Refusal::number),
            Face::Raw(state) => {
                // SAFETY: the state is an endpoint.
                unless(
                    unsafe { ffi::bks_endpoint_close(&mut **state, slot as u32) },
                    (),
                )
            }
        }
    }

    pub fn message(&mut self, message: &Message, out: &mut [u8]) -> Told {
        let Message {
            slot,
            frame,
            challenge,
            own,
            standard,
            ..
        } = message;
        let state = match self {
            Face::Safe(endpoint) => {
                let cookies = Cookies { own, standard };
                return endpoint
                    .message(*slot, frame, *challenge, cookies, out)
                    .into();
            }
            Face::Raw(state) => &mut **state,
        };
        let (slot, challenge) = (*slot as u32, *challenge);
        let ((frame, frame_len), (out, out_len)) = (lend(frame), lend_mut(out));
        let ((own, own_len), (standard, standard_len)) = (lend(own), lend(standard));
        // SAFETY: the state is an endpoint; the runs are slices, or empty.
        #[rustfmt::skip]
        let told = unsafe {
            ffi::bks_endpoint_message(
                state, slot, frame, frame_len, challenge, own, own_len, standard, standard_len, out, out_len,
            )
        };
        told.into()
    }

    /// The endpoint as it lies in memory.
    pub fn bytes(&self) -> &[u8] {
        match self {
            Face::Safe(endpoint) => endpoint.as_bytes(),
            Face::Raw(state) => &state.bytes,
        }
    }

    pub fn own(&self) -> Own {
        let state = match self {
            Face::Safe(endpoint) => return endpoint.own(),
            Face::Raw(state) => &**state,
        };
        // SAFETY: the state is an endpoint.
        let own = unsafe { ffi::bks_endpoint_own(state) };
        let (name, behind) = own.name.split_at(usize::from(own.name_len));
        assert!(behind.iter().all(|byte| *byte == 0));
        Own {
            name: name.to_vec(),
            flags: own.flags,
            creation: own.creation,
        }
    }

    /// On the raw side, what lies behind the name must be zero.
    pub fn slot(&self, at: usize) -> Slot {
        let state = match self {
            Face::Safe(endpoint) => return endpoint.slot(at),
            Face::Raw(state) => &**state,
        };
        // SAFETY: the state is an endpoint.
        let slot = unsafe { ffi::bks_endpoint_slot(state, at as u32) };
        let (name, behind) = slot.name.split_at(usize::from(slot.name_len));
        assert!(behind.iter().all(|byte| *byte == 0));
        Slot {
            stage: Stage::ALL[slot.stage as usize],
            name: name.to_vec(),
            flags: slot.flags,
            creation: slot.creation,
            challenge: slot.challenge,
        }
    }
}
