//! A node's fields, as a request or a PORT2 reply has them.

use std::fmt;

use crate::text::Text;
use crate::{ffi, version, Refusal};

/// What a node registers, and what the mapper hands on of it. The default has no name and no port,
/// and otherwise what a node of today says: a normal node (77) over TCP and IPv4 (0) that speaks
/// versions 5 and 6.
///
/// ```
/// use birkenschuh::client::Node;
///
/// let hidden = Node { kind: 72, port: 4370, name: b"ride", ..Node::default() };
/// assert_eq!((hidden.protocol, hidden.highest, hidden.lowest), (0, 6, 5));
/// ```
#[derive(Clone, Copy, PartialEq, Eq)]
pub struct Node<'a> {
    /// Where the node listens.
    pub port: u16,
    /// 77 a normal node, 72 a hidden one; any number may be sent.
    pub kind: u8,
    /// 0 for TCP over IPv4; any number may be sent.
    pub protocol: u8,
    /// The highest version of the distribution protocol that the node speaks.
    pub highest: u16,
    /// The lowest version of the distribution protocol that the node speaks.
    pub lowest: u16,
    /// The name without "@" and host.
    pub name: &'a [u8],
    /// Bytes that the mapper hands on unread.
    pub extra: &'a [u8],
}

impl Default for Node<'_> {
    fn default() -> Self {
        Node {
            port: 0,
            kind: 77,
            protocol: 0,
            highest: 6,
            lowest: 5,
            name: b"",
            extra: b"",
        }
    }
}

impl fmt::Debug for Node<'_> {
    fn fmt(&self, f: &mut fmt::Formatter<'_>) -> fmt::Result {
        f.debug_struct("Node")
            .field("name", &Text(self.name))
            .field("port", &self.port)
            .field("kind", &self.kind)
            .field("protocol", &self.protocol)
            .field("highest", &self.highest)
            .field("lowest", &self.lowest)
            .field("extra", &Text(self.extra))
            .finish()
    }
}

/// What the mapper says to a name asked for.
#[derive(Clone, Copy, Debug, PartialEq, Eq)]
pub enum Port2Reply<'a> {
    /// The node, as the mapper told it: no field is examined, the name neither.
    Found(Node<'a>),
    /// No node.
    Failed {
        /// The mapper's error, above 0.
        result: u8,
    },
}

/// Reads the reply to a name asked for.
///
/// Refused: [`Refusal::UnknownTag`] (not 119), [`Refusal::BadLength`] (empty, or cut, or with bytes
/// behind the last field).
///
/// ```
/// use birkenschuh::client::{read_port2, Node, Port2Reply};
///
/// let reply = b"w\x00\x11\x12M\x00\x00\x06\x00\x05\x00\x04ride\x00\x00";
/// let ride = Node { port: 4370, name: b"ride", ..Node::default() };
/// assert_eq!(read_port2(reply)?, Port2Reply::Found(ride));
/// assert_eq!(read_port2(b"w\x01")?, Port2Reply::Failed { result: 1 });
/// # Ok::<(), birkenschuh::Refusal>(())
/// ```
///
/// # Panics
/// If the library that was linked is of another version: see [`check`](crate::check).
pub fn read_port2(reply: &[u8]) -> Result<Port2Reply<'_>, Refusal> {
    version::demand();
    // SAFETY: `reply` is readable for its length.
    let told = unsafe { ffi::bks_read_port2(reply.as_ptr(), reply.len()) };
    Refusal::check(told.refusal)?;
    if told.result > 0 {
        // A number of 32 bits that came from one byte.
        let result = told.result as u8;
        return Ok(Port2Reply::Failed { result });
    }
    Ok(Port2Reply::Found(Node {
        port: told.port,
        kind: told.kind,
        protocol: told.protocol,
        highest: told.highest,
        lowest: told.lowest,
        name: part(reply, told.name_at, told.name_len),
        extra: part(reply, told.extra_at, told.extra_len),
    }))
}

/// The part of a reply that the library names by place and length.
pub(super) fn part(reply: &[u8], at: u32, length: u32) -> &[u8] {
    &reply[at as usize..][..length as usize]
}
