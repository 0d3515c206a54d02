//! The Erlang port mapper (EPMD) and the Erlang distribution handshake (version 6) for Rust hosts:
//! a safe wrapper around the proved library `libbirkenschuh.a`.
//!
//! - [`Registry`] answers requests to the port mapper.
//! - [`client`] writes those requests and reads the replies: a node's end of the mapper.
//! - [`Endpoint`] runs handshakes, as initiator and as acceptor.
//! - [`md5`], [`is_node_name`], [`is_full_name`] and [`compare`] are the parts below them that a host
//!   may want too.
//! - [`check`] tells whether the library that was linked is of this crate's version.
//!
//! The library owns no socket, clock or random number. The host passes in whole frames (with their
//! two length bytes), connection numbers, challenges and cookies, and lends the output. A call that
//! is refused ([`Refusal`]) writes no output; any other call tells how many bytes it wrote, from the
//! first on, and leaves the bytes behind them as they were.
//!
//! ```
//! use birkenschuh::{Registry, REGISTRY_OUTPUT};
//!
//! let mut registry = Registry::new(4369, 1)?;
//! let mut out = [0; REGISTRY_OUTPUT];
//! let reply = registry.request(9, b"\x00\x01n", &mut out)?;
//! assert_eq!(out[..reply.written], 4369u32.to_be_bytes()); // no names yet: the port alone
//! # Ok::<(), birkenschuh::Refusal>(())
//! ```

#![warn(missing_docs)]

pub mod client;
mod endpoint;
pub mod ffi;
mod flags;
mod refusal;
mod registry;
mod reply;
mod slot;
mod text;
mod version;

use std::cmp::Ordering;

pub use endpoint::{Answered, Cookies, Endpoint, Started, ENDPOINT_OUTPUT, ENDPOINT_SIZE, SLOTS};
pub use flags::{FlagFlaw, REQUIRED_FLAGS};
pub use refusal::{Refusal, Refused};
pub use registry::{Registration, Registry, PLACES, REGISTRY_OUTPUT, REGISTRY_SIZE};
pub use reply::{Alive2Result, Asked, Reply};
pub use slot::{Own, Slot, Stage};
pub use version::{check, Mismatch};

/// The MD5 digest of any text (RFC 1321).
///
/// ```
/// let digest = birkenschuh::md5(b"abc");
/// assert_eq!(digest[..4], [0x90, 0x01, 0x50, 0x98]);
/// ```
pub fn md5(text: &[u8]) -> [u8; 16] {
    let mut digest = [0; 16];
    // SAFETY: `text` is readable for its length and `digest` has the sixteen bytes that are written.
    unsafe { ffi::bks_md5(text.as_ptr(), text.len(), digest.as_mut_ptr()) };
    digest
}

/// Whether the port mapper takes `name`: 1 to 255 bytes of well-formed UTF-8 (RFC 3629) without a
/// zero byte and without "@".
///
/// ```
/// assert!(birkenschuh::is_node_name("fähre".as_bytes()));
/// assert!(!birkenschuh::is_node_name(b"ride@host"));
/// assert!(!birkenschuh::is_node_name(b""));
/// ```
pub fn is_node_name(name: &[u8]) -> bool {
    // SAFETY: `name` is readable for its length.
    unsafe { ffi::bks_node_name_ok(name.as_ptr(), name.len()) }
}

/// Whether a start takes `name`: 3 to 255 bytes with exactly one "@", neither first nor last.
///
/// ```
/// assert!(birkenschuh::is_full_name(b"ride@host"));
/// assert!(!birkenschuh::is_full_name(b"ride"));
/// ```
pub fn is_full_name(name: &[u8]) -> bool {
    // SAFETY: `name` is readable for its length.
    unsafe { ffi::bks_full_name_ok(name.as_ptr(), name.len()) }
}

/// How two names compare where both sides start at once: as unsigned bytes, a proper prefix being
/// less.
///
/// ```
/// use std::cmp::Ordering;
///
/// assert_eq!(birkenschuh::compare(b"a@b", b"a@bc"), Ordering::Less);
/// ```
pub fn compare(a: &[u8], b: &[u8]) -> Ordering {
    // SAFETY: both names are readable for their length.
    unsafe { ffi::bks_compare(a.as_ptr(), a.len(), b.as_ptr(), b.len()) }.cmp(&0)
}
