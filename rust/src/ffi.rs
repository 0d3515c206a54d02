//! The functions of `include/birkenschuh.h`, for those who want no wrapper.
//!
//! Every pointer to a state must be to one that the `_new` function has filled without refusal;
//! every other pointer goes with a length and must be readable (`out` and `digest`: writable) for
//! it. Null with length 0 is an empty run. What an output lies in must not overlap anything else
//! that is lent. Nothing here compares the library's version with this one: see
//! [`check`](crate::check).

#![allow(non_camel_case_types)]

mod client;
mod endpoint;
mod registry;

pub use client::*;
pub use endpoint::*;
pub use registry::*;

/// The version of the boundary that these declarations are of.
pub const BKS_ABI: u32 = 2;

extern "C" {
    /// The version of the boundary that the library is of.
    pub fn bks_abi() -> u32;
    /// How many bytes the library takes a registry to have.
    pub fn bks_registry_size() -> usize;
    /// How many bytes the library takes an endpoint to have.
    pub fn bks_endpoint_size() -> usize;

    /// Writes the MD5 digest of a text, sixteen bytes.
    pub fn bks_md5(text: *const u8, len: usize, digest: *mut u8);
    /// Whether a name is one that the port mapper takes.
    pub fn bks_node_name_ok(name: *const u8, len: usize) -> bool;
    /// Whether a name is a full name.
    pub fn bks_full_name_ok(name: *const u8, len: usize) -> bool;
    /// How two names compare: minus one, zero or one.
    pub fn bks_compare(a: *const u8, a_len: usize, b: *const u8, b_len: usize) -> i8;
}
