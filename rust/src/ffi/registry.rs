//! The port mapper.

/// The port mapper's state: plain bytes, without padding.
#[derive(Clone, Copy, PartialEq, Eq)]
#[repr(C)]
pub struct bks_registry {
    /// Opaque: the library's own.
    pub bytes: [u8; 25_670],
}

/// What a request gives.
#[derive(Clone, Copy, Debug)]
#[repr(C)]
pub struct bks_written {
    /// 0, or the refusal's number.
    pub refusal: u32,
    /// How many output bytes were written.
    pub written: usize,
}

/// A registered node. A free place is all zero.
#[derive(Clone, Copy, Debug)]
#[repr(C)]
pub struct bks_registration {
    /// The name without "@" and host.
    pub name: [u8; 255],
    /// How many bytes of `name` are the name; the others are zero.
    pub name_len: u8,
    /// Bytes that the mapper hands on unread.
    pub extra: [u8; 128],
    /// How many bytes of `extra` are the extra field; the others are zero.
    pub extra_len: u8,
    /// The node type.
    pub kind: u8,
    /// The transport protocol.
    pub protocol: u8,
    /// Where the node listens.
    pub port: u16,
    /// The highest version of the distribution protocol.
    pub highest: u16,
    /// The lowest version of the distribution protocol.
    pub lowest: u16,
    /// The connection that registered the node.
    pub connection: u32,
    /// The node's creation.
    pub creation: u32,
}

extern "C" {
    /// Makes a registry at `r`. 0, or the refusal's number, and then nothing is written.
    ///
    /// # Safety
    /// `r` must be writable; it may hold anything before.
    pub fn bks_registry_new(r: *mut bks_registry, port: u16, first_creation: u32) -> u32;

    /// Answers one request.
    ///
    /// # Safety
    /// As said at the head of this module.
    pub fn bks_registry_request(
        r: *mut bks_registry,
        connection: u32,
        frame: *const u8,
        frame_len: usize,
        out: *mut u8,
        out_len: usize,
    ) -> bks_written;

    /// Frees the place that `connection` registered. Whether there was one.
    ///
    /// # Safety
    /// As said at the head of this module.
    pub fn bks_registry_close(r: *mut bks_registry, connection: u32) -> bool;

    /// The node registered at `place`; all zero if the place is free or not below 64.
    ///
    /// # Safety
    /// As said at the head of this module.
    pub fn bks_registry_entry(r: *const bks_registry, place: u32) -> bks_registration;

    /// The next creation.
    ///
    /// # Safety
    /// As said at the head of this module.
    pub fn bks_registry_next(r: *const bks_registry) -> u32;

    /// The registry's own port.
    ///
    /// # Safety
    /// As said at the head of this module.
    pub fn bks_registry_port(r: *const bks_registry) -> u16;
}
