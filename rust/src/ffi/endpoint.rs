//! The distribution handshake.

/// The endpoint's state: plain bytes, without padding.
#[derive(Clone, Copy, PartialEq, Eq)]
#[repr(C)]
pub struct bks_endpoint {
    /// Opaque: the library's own.
    pub bytes: [u8; 9_004],
}

/// What making gives.
#[derive(Clone, Copy, Debug, PartialEq, Eq)]
#[repr(C)]
pub struct bks_made {
    /// 0, or the refusal's number.
    pub refusal: u32,
    /// Beside 9 how many required flags are missing; otherwise 0.
    pub missing: u32,
    /// Beside 9 the lowest missing flag by its bit, or 33 where none is missing; otherwise 0.
    pub lowest: u32,
}

/// What a start gives.
#[derive(Clone, Copy, Debug)]
#[repr(C)]
pub struct bks_started {
    /// 0, or the refusal's number.
    pub refusal: u32,
    /// The slot that was taken; beside a refusal 0.
    pub slot: u32,
    /// How many output bytes were written.
    pub written: usize,
}

/// What an arrival gives.
#[derive(Clone, Copy, Debug)]
#[repr(C)]
pub struct bks_arrived {
    /// 0, or the refusal's number.
    pub refusal: u32,
    /// The slot that was taken; beside a refusal 0.
    pub slot: u32,
}

/// What a message gives.
#[derive(Clone, Copy, Debug)]
#[repr(C)]
pub struct bks_answered {
    /// 0, or the refusal's number.
    pub refusal: u32,
    /// The slot's new stage; beside a refusal 0.
    pub stage: u32,
    /// Another slot that was freed; 32: none, as beside a refusal.
    pub freed: u32,
    /// 1 if the slot named is free now by this message, answered or refused; otherwise 0.
    pub ended: u32,
    /// How many output bytes were written.
    pub written: usize,
    /// Beside 9 how many required flags are missing; otherwise 0.
    pub missing: u32,
    /// Beside 9 the lowest missing flag by its bit, or 33 where none is missing; otherwise 0.
    pub lowest: u32,
}

/// What is recorded in a slot.
#[derive(Clone, Copy, Debug)]
#[repr(C)]
pub struct bks_slot {
    /// The stage, 0 (free) to 7 (connected).
    pub stage: u32,
    /// The peer's creation.
    pub creation: u32,
    /// The challenge that we sent.
    pub challenge: u32,
    /// The peer's flags.
    pub flags: u64,
    /// How many bytes of `name` are the name; the others are zero.
    pub name_len: u8,
    /// The peer's full name.
    pub name: [u8; 255],
}

/// What an endpoint was made with.
#[derive(Clone, Copy, Debug)]
#[repr(C)]
pub struct bks_own {
    /// The endpoint's flags.
    pub flags: u64,
    /// The endpoint's creation.
    pub creation: u32,
    /// How many bytes of `name` are the name; the others are zero.
    pub name_len: u8,
    /// The endpoint's full name.
    pub name: [u8; 255],
}

extern "C" {
    /// Makes an endpoint at `e`. If that is refused, nothing is written.
    ///
    /// # Safety
    /// `e` must be writable, and may hold anything before; `name` as said at the head of this
    /// module.
    pub fn bks_endpoint_new(
        e: *mut bks_endpoint,
        name: *const u8,
        name_len: usize,
        flags: u64,
        creation: u32,
    ) -> bks_made;

    /// Begins a handshake as initiator.
    ///
    /// # Safety
    /// As said at the head of this module.
    pub fn bks_endpoint_start(
        e: *mut bks_endpoint,
        name: *const u8,
        name_len: usize,
        out: *mut u8,
        out_len: usize,
    ) -> bks_started;

    /// Begins a handshake as acceptor.
    ///
    /// # Safety
    /// As said at the head of this module.
    pub fn bks_endpoint_arrive(e: *mut bks_endpoint) -> bks_arrived;

    /// Frees a slot. 0, or the refusal's number.
    ///
    /// # Safety
    /// As said at the head of this module.
    pub fn bks_endpoint_close(e: *mut bks_endpoint, slot: u32) -> u32;

    /// Takes in one message on a slot.
    ///
    /// # Safety
    /// As said at the head of this module.
    pub fn bks_endpoint_message(
        e: *mut bks_endpoint,
        slot: u32,
        frame: *const u8,
        frame_len: usize,
        challenge: u32,
        own: *const u8,
        own_len: usize,
        standard: *const u8,
        standard_len: usize,
        out: *mut u8,
        out_len: usize,
    ) -> bks_answered;

    /// What is recorded in a slot; all zero if it is free or not below 32.
    ///
    /// # Safety
    /// As said at the head of this module.
    pub fn bks_endpoint_slot(e: *const bks_endpoint, slot: u32) -> bks_slot;

    /// The endpoint's own name, flags and creation.
    ///
    /// # Safety
    /// As said at the head of this module.
    pub fn bks_endpoint_own(e: *const bks_endpoint) -> bks_own;
}
