//! The NAMES reply.

use std::fmt;

use super::node::part;
use crate::text::Text;
use crate::{ffi, version, Refusal, PLACES};

/// A line of a NAMES reply: a registered node.
#[derive(Clone, Copy, Default, PartialEq, Eq)]
pub struct Line<'a> {
    /// The name without "@" and host. It may hold newlines.
    pub name: &'a [u8],
    /// Where the node listens.
    pub port: u16,
}

impl fmt::Debug for Line<'_> {
    fn fmt(&self, f: &mut fmt::Formatter<'_>) -> fmt::Result {
        f.debug_struct("Line")
            .field("name", &Text(self.name))
            .field("port", &self.port)
            .finish()
    }
}

/// The list of all names.
#[derive(Clone, PartialEq, Eq)]
pub struct NamesReply<'a> {
    port: u16,
    count: usize,
    lines: [Line<'a>; PLACES],
}

impl<'a> NamesReply<'a> {
    /// The mapper's own port.
    pub fn port(&self) -> u16 {
        self.port
    }

    /// The registered nodes, in the mapper's order.
    pub fn lines(&self) -> &[Line<'a>] {
        &self.lines[..self.count]
    }
}

impl fmt::Debug for NamesReply<'_> {
    fn fmt(&self, f: &mut fmt::Formatter<'_>) -> fmt::Result {
        f.debug_struct("NamesReply")
            .field("port", &self.port)
            .field("lines", &self.lines())
            .finish()
    }
}

/// Reads the list of all names. A reply that was cut behind a line looks like a whole one: it is to be
/// read when the mapper has closed the connection. The call needs some 38 KB of stack.
///
/// Refused: [`Refusal::BadLength`] (no own port up to 65,535 with at most 64 lines behind it),
/// [`Refusal::Ambiguous`] (there is more than one reading). The latter is to be expected of most
/// replies with two short names, since a name may hold what looks like the end of a line and the
/// beginning of the next. A host then asks for a name by [`port_please2_request`], or shows the text
/// as it came.
///
/// ```
/// use birkenschuh::client::{read_names, Line};
/// use birkenschuh::Refusal;
///
/// let names = read_names(b"\x00\x00\x11\x11name ride at port 4370\n")?;
/// assert_eq!(names.port(), 4369);
/// assert_eq!(names.lines(), [Line { name: b"ride", port: 4370 }]);
///
/// // Nodes "a" and "b", or one node whose name has a newline in it.
/// let two = b"\x00\x00\x11\x11name a at port 1\nname b at port 2\n";
/// assert_eq!(read_names(two), Err(Refusal::Ambiguous));
/// # Ok::<(), birkenschuh::Refusal>(())
/// ```
///
/// # Panics
/// If the library that was linked is of another version: see [`check`](crate::check).
///
/// [`port_please2_request`]: super::port_please2_request
pub fn read_names(reply: &[u8]) -> Result<NamesReply<'_>, Refusal> {
    version::demand();
    // SAFETY: `reply` is readable for its length.
    let told = unsafe { ffi::bks_read_names(reply.as_ptr(), reply.len()) };
    Refusal::check(told.refusal)?;
    let count = told.count as usize;
    let mut lines = [Line::default(); PLACES];
    for (line, told) in lines.iter_mut().zip(&told.line[..count]) {
        *line = Line {
            name: part(reply, told.at, told.len),
            port: told.port,
        };
    }
    Ok(NamesReply {
        port: told.port,
        count,
        lines,
    })
}
