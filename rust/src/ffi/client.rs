//! A node's end of the port mapper.

use super::bks_written;

/// What an ALIVE2 reply says. Beside a refusal all is 0.
#[derive(Clone, Copy, Debug, PartialEq, Eq)]
#[repr(C)]
pub struct bks_alive2_reply {
    /// 0, or the refusal's number.
    pub refusal: u32,
    /// 118, or 121, whose creation is a short one.
    pub tag: u32,
    /// 0, or the mapper's error.
    pub result: u32,
    /// The node's creation; beside an error 0.
    pub creation: u32,
}

/// What a PORT2 reply says. Beside a refusal all is 0, and beside an error all behind `result`.
#[derive(Clone, Copy, Debug, PartialEq, Eq)]
#[repr(C)]
pub struct bks_port2_reply {
    /// 0, or the refusal's number.
    pub refusal: u32,
    /// 0, or the mapper's error.
    pub result: u32,
    /// Where the node listens.
    pub port: u16,
    /// The highest version of the distribution protocol.
    pub highest: u16,
    /// The lowest version of the distribution protocol.
    pub lowest: u16,
    /// The node type.
    pub kind: u8,
    /// The transport protocol.
    pub protocol: u8,
    /// Where the name begins, counted from the reply's first byte.
    pub name_at: u32,
    /// How many bytes the name has.
    pub name_len: u32,
    /// Where the extra field begins, counted from the reply's first byte.
    pub extra_at: u32,
    /// How many bytes the extra field has.
    pub extra_len: u32,
}

/// A line of a NAMES reply.
#[derive(Clone, Copy, Debug, PartialEq, Eq)]
#[repr(C)]
pub struct bks_names_line {
    /// Where the name begins, counted from the reply's first byte.
    pub at: u32,
    /// How many bytes the name has.
    pub len: u32,
    /// Where the node listens.
    pub port: u16,
}

/// What a NAMES reply says. Beside a refusal all is 0.
#[derive(Clone, Copy, Debug, PartialEq, Eq)]
#[repr(C)]
pub struct bks_names_reply {
    /// 0, or the refusal's number.
    pub refusal: u32,
    /// The mapper's own port.
    pub port: u16,
    /// How many lines there are.
    pub count: u32,
    /// The lines; those behind the count are zero.
    pub line: [bks_names_line; 64],
}

extern "C" {
    /// Writes a request to register a node.
    ///
    /// # Safety
    /// As said at the head of this module.
    pub fn bks_alive2_request(
        port: u16,
        kind: u8,
        protocol: u8,
        highest: u16,
        lowest: u16,
        name: *const u8,
        name_len: usize,
        extra: *const u8,
        extra_len: usize,
        out: *mut u8,
        out_len: usize,
    ) -> bks_written;

    /// Writes a request that asks for a name.
    ///
    /// # Safety
    /// As said at the head of this module.
    pub fn bks_port_please2_request(
        name: *const u8,
        name_len: usize,
        out: *mut u8,
        out_len: usize,
    ) -> bks_written;

    /// Writes a request that asks for all names.
    ///
    /// # Safety
    /// As said at the head of this module.
    pub fn bks_names_request(out: *mut u8, out_len: usize) -> bks_written;

    /// Reads the reply to a registration.
    ///
    /// # Safety
    /// As said at the head of this module.
    pub fn bks_read_alive2(reply: *const u8, len: usize) -> bks_alive2_reply;

    /// Reads the reply to a name asked for.
    ///
    /// # Safety
    /// As said at the head of this module.
    pub fn bks_read_port2(reply: *const u8, len: usize) -> bks_port2_reply;

    /// Reads the list of all names.
    ///
    /// # Safety
    /// As said at the head of this module.
    pub fn bks_read_names(reply: *const u8, len: usize) -> bks_names_reply;
}
