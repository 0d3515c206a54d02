//! A node's end of the port mapper: its three requests, written from fields, and their replies, read.
//!
//! A request is a frame. A reply has no length of its own: the host reads an ALIVE2 reply by its tag
//! (118: 6 bytes, 121: 4) and the others to the end of the connection, and passes in all of it.
//!
//! ```
//! use birkenschuh::client::{self, Node, Port2Reply};
//! use birkenschuh::{Registry, REGISTRY_OUTPUT};
//!
//! let mut registry = Registry::new(4369, 4)?;
//! let (mut request, mut reply) = ([0; client::REQUEST_OUTPUT], [0; REGISTRY_OUTPUT]);
//! let ride = Node { port: 4370, name: b"ride", ..Node::default() };
//!
//! let length = client::alive2_request(&ride, &mut request)?;
//! let written = registry.request(1, &request[..length], &mut reply)?.written;
//! let told = client::read_alive2(&reply[..written])?;
//! assert_eq!(told, client::Alive2Reply::Registered { creation: 4 });
//!
//! let length = client::port_please2_request(b"ride", &mut request)?;
//! let written = registry.request(2, &request[..length], &mut reply)?.written;
//! assert_eq!(client::read_port2(&reply[..written])?, Port2Reply::Found(ride));
//!
//! let length = client::names_request(&mut request)?;
//! let written = registry.request(2, &request[..length], &mut reply)?.written;
//! let names = client::read_names(&reply[..written])?;
//! assert_eq!((names.port(), names.lines()[0].name), (4369, &b"ride"[..]));
//! # Ok::<(), birkenschuh::Refusal>(())
//! ```

mod names;
mod node;

pub use names::{read_names, Line, NamesReply};
pub use node::{read_port2, Node, Port2Reply};

use crate::{ffi, version, Refusal};

/// The output that any request fits in: a name of 255 bytes and 128 extra bytes.
pub const REQUEST_OUTPUT: usize = 398;

/// Writes the request that registers `node`, and tells how many bytes it has. `out` need not be
/// longer than that.
///
/// Refused, in this order, and then nothing is written: [`Refusal::BadLength`] (extra over 128
/// bytes), [`Refusal::BadName`], [`Refusal::BadVersions`], [`Refusal::OutputTooShort`].
///
/// ```
/// use birkenschuh::client::{alive2_request, Node};
/// use birkenschuh::Refusal;
///
/// let mut out = [0; 19];
/// let ride = Node { port: 4370, name: b"ride", ..Node::default() };
/// assert_eq!(alive2_request(&ride, &mut out), Ok(19));
/// assert_eq!(&out, b"\x00\x11x\x11\x12M\x00\x00\x06\x00\x05\x00\x04ride\x00\x00");
///
/// let with_host = Node { name: b"ride@host", ..ride };
/// assert_eq!(alive2_request(&with_host, &mut out), Err(Refusal::BadName));
/// ```
///
/// # Panics
/// If the library that was linked is of another version: see [`check`](crate::check).
pub fn alive2_request(node: &Node<'_>, out: &mut [u8]) -> Result<usize, Refusal> {
    version::demand();
    // SAFETY: name and extra are readable and `out` is writable for its length.
    written(unsafe {
        ffi::bks_alive2_request(
            node.port,
            node.kind,
            node.protocol,
            node.highest,
            node.lowest,
            node.name.as_ptr(),
            node.name.len(),
            node.extra.as_ptr(),
            node.extra.len(),
            out.as_mut_ptr(),
            out.len(),
        )
    })
}

/// Writes the request that asks for the node called `name`, and tells how many bytes it has. `out`
/// need not be longer than that.
///
/// Refused, in this order, and then nothing is written: [`Refusal::BadName`],
/// [`Refusal::OutputTooShort`].
///
/// ```
/// use birkenschuh::client::port_please2_request;
///
/// let mut out = [0; 7];
/// assert_eq!(port_please2_request(b"ride", &mut out), Ok(7));
/// assert_eq!(&out, b"\x00\x05zride");
/// ```
///
/// # Panics
/// If the library that was linked is of another version: see [`check`](crate::check).
pub fn port_please2_request(name: &[u8], out: &mut [u8]) -> Result<usize, Refusal> {
    version::demand();
    // SAFETY: `name` is readable and `out` writable for its length.
    written(unsafe {
        ffi::bks_port_please2_request(name.as_ptr(), name.len(), out.as_mut_ptr(), out.len())
    })
}

/// Writes the request that asks for all names, and tells how many bytes it has: three.
///
/// Refused, and then nothing is written: [`Refusal::OutputTooShort`].
///
/// ```
/// let mut out = [0; 3];
/// assert_eq!(birkenschuh::client::names_request(&mut out), Ok(3));
/// assert_eq!(&out, b"\x00\x01n");
/// ```
///
/// # Panics
/// If the library that was linked is of another version: see [`check`](crate::check).
pub fn names_request(out: &mut [u8]) -> Result<usize, Refusal> {
    version::demand();
    // SAFETY: `out` is writable for its length.
    written(unsafe { ffi::bks_names_request(out.as_mut_ptr(), out.len()) })
}

fn written(told: ffi::bks_written) -> Result<usize, Refusal> {
    Refusal::check(told.refusal)?;
    Ok(told.written)
}

/// What the mapper says to a registration.
///
/// ```
/// use birkenschuh::client::{read_alive2, Alive2Reply};
/// use birkenschuh::Alive2Result;
///
/// let told = read_alive2(&[118, 3, 0, 0, 0, 0])?;
/// assert_eq!(told, Alive2Reply::Failed { tag: 118, result: 3 });
/// assert_eq!(Alive2Result::of(3), Some(Alive2Result::NoPlace)); // by this library's mapper
/// # Ok::<(), birkenschuh::Refusal>(())
/// ```
#[derive(Clone, Copy, Debug, PartialEq, Eq)]
pub enum Alive2Reply {
    /// Registered, for as long as the connection stays open. (Tag 118: the node speaks version 6.)
    Registered {
        /// Tells this node from an earlier one of the same name.
        creation: u32,
    },
    /// Registered likewise, with a creation that is soon used again. (Tag 121: it does not.)
    RegisteredShort {
        /// 1 to 3, if the mapper is this library's.
        creation: u16,
    },
    /// Not registered.
    Failed {
        /// Which reply it was, 118 or 121.
        tag: u8,
        /// The mapper's error, above 0, as it stands: any mapper may have answered. Where it is this
        /// library's, [`Alive2Result::of`](crate::Alive2Result::of) gives the meaning; Erlang's epmd
        /// tells 1 whatever the reason.
        result: u8,
    },
}

/// Reads the reply to a registration.
///
/// Refused: [`Refusal::UnknownTag`] (neither 118 nor 121), [`Refusal::BadLength`] (empty, or not 6
/// bytes behind 118 and 4 behind 121, tag and result included).
///
/// ```
/// use birkenschuh::client::{read_alive2, Alive2Reply};
///
/// let told = read_alive2(&[118, 0, 0, 0, 0, 4])?;
/// assert_eq!(told, Alive2Reply::Registered { creation: 4 });
/// assert_eq!(read_alive2(&[121, 1, 0, 0])?, Alive2Reply::Failed { tag: 121, result: 1 });
/// # Ok::<(), birkenschuh::Refusal>(())
/// ```
///
/// # Panics
/// If the library that was linked is of another version: see [`check`](crate::check).
pub fn read_alive2(reply: &[u8]) -> Result<Alive2Reply, Refusal> {
    version::demand();
    // SAFETY: `reply` is readable for its length.
    let told = unsafe { ffi::bks_read_alive2(reply.as_ptr(), reply.len()) };
    Refusal::check(told.refusal)?;
    // The library tells numbers of 32 bits that came from one or two bytes.
    let (tag, result) = (told.tag as u8, told.result as u8);
    Ok(match (tag, result) {
        (118, 0) => Alive2Reply::Registered {
            creation: told.creation,
        },
        (_, 0) => Alive2Reply::RegisteredShort {
            creation: told.creation as u16,
        },
        _ => Alive2Reply::Failed { tag, result },
    })
}
