//! The port mapper.

use std::fmt;

use crate::text::Text;
use crate::{ffi, version, Asked, Refusal, Reply};

/// The output that a request needs: the longest NAMES reply, of 64 names of 255 bytes.
pub const REGISTRY_OUTPUT: usize = 17_604;

/// How many bytes a registry has.
pub const REGISTRY_SIZE: usize = size_of::<ffi::bks_registry>();

/// How many nodes a registry can hold.
pub const PLACES: usize = 64;

/// The port mapper's state: its own port, the next creation and the registered nodes.
///
/// ```
/// use birkenschuh::{Alive2Result, Asked, Registry, REGISTRY_OUTPUT};
///
/// let mut registry = Registry::new(4369, 4)?;
/// let mut out = [0; REGISTRY_OUTPUT];
///
/// // ALIVE2_REQ: "ride" listens on port 4370, a normal node that speaks versions 5 and 6.
/// let alive2 = b"\x00\x11x\x11\x12M\x00\x00\x06\x00\x05\x00\x04ride\x00\x00";
/// let reply = registry.request(1, alive2, &mut out)?;
/// assert_eq!(out[..reply.written], [118, 0, 0, 0, 0, 4]); // to be sent
/// let result = Alive2Result::Registered;
/// assert_eq!(reply.asked, Asked::Alive2 { result, creation: 4 });
///
/// // PORT_PLEASE2_REQ, from another connection.
/// let reply = registry.request(2, b"\x00\x05zride", &mut out)?;
/// assert_eq!(reply.asked, Asked::PortPlease2 { found: true });
/// assert_eq!(out[..4], [119, 0, 0x11, 0x12]);
/// assert_eq!(reply.written, 18);
///
/// // The node's connection ends, and with it the registration.
/// assert!(registry.close(1));
/// let reply = registry.request(2, b"\x00\x05zride", &mut out)?;
/// assert_eq!(reply.asked, Asked::PortPlease2 { found: false });
/// # Ok::<(), birkenschuh::Refusal>(())
/// ```
///
/// Two registries are equal if they hold the same, place by place.
#[derive(Clone, PartialEq, Eq)]
pub struct Registry {
    // Some 26 KB: kept in one place instead of moved about.
    state: Box<ffi::bks_registry>,
}

impl Registry {
    /// A registry without nodes. `port` is the port that the host listens on, which NAMES replies
    /// tell; `first_creation` is given to the first node that registers.
    ///
    /// Refused: [`Refusal::ZeroCreation`].
    ///
    /// # Panics
    /// If the library that was linked is of another version: see [`check`](crate::check).
    pub fn new(port: u16, first_creation: u32) -> Result<Registry, Refusal> {
        version::demand();
        let mut state = Box::<ffi::bks_registry>::new_uninit();
        // SAFETY: the pointer is to memory of a registry's size.
        Refusal::check(unsafe { ffi::bks_registry_new(state.as_mut_ptr(), port, first_creation) })?;
        // SAFETY: a call that is not refused has written the state.
        let state = unsafe { state.assume_init() };
        Ok(Registry { state })
    }

    /// Answers one request that came in on `connection`, a number that the host chose for the
    /// socket. The reply stands in `out`, which must have [`REGISTRY_OUTPUT`] bytes.
    ///
    /// Refused, and then nothing is changed: [`Refusal::OutputTooShort`], [`Refusal::NotAFrame`],
    /// [`Refusal::UnknownTag`], [`Refusal::NotServed`], [`Refusal::BadLength`],
    /// [`Refusal::BadName`], [`Refusal::BadVersions`].
    pub fn request(
        &mut self,
        connection: u32,
        frame: &[u8],
        out: &mut [u8],
    ) -> Result<Reply, Refusal> {
        // SAFETY: the state is a registry, `frame` is readable and `out` writable for its length.
        let answer = unsafe {
            ffi::bks_registry_request(
                &mut *self.state,
                connection,
                frame.as_ptr(),
                frame.len(),
                out.as_mut_ptr(),
                out.len(),
            )
        };
        Refusal::check(answer.refusal)?;
        Ok(Reply {
            asked: Asked::of(frame, &out[..answer.written]),
            written: answer.written,
        })
    }

    /// The connection has ended: frees the place that it registered. Whether there was one.
    pub fn close(&mut self, connection: u32) -> bool {
        // SAFETY: the state is a registry.
        unsafe { ffi::bks_registry_close(&mut *self.state, connection) }
    }

    /// The node registered at `place`, below [`PLACES`]; nothing if the place is free.
    pub fn entry(&self, place: usize) -> Option<Registration> {
        let place = u32::try_from(place).ok()?;
        // SAFETY: the state is a registry.
        let entry = unsafe { ffi::bks_registry_entry(&*self.state, place) };
        (entry.name_len > 0).then(|| Registration::from(&entry))
    }

    /// The registered nodes, in the order of their places, which is that of a NAMES reply.
    pub fn registrations(&self) -> impl Iterator<Item = Registration> + '_ {
        (0..PLACES).filter_map(|place| self.entry(place))
    }

    /// The creation that the next node gets.
    pub fn next_creation(&self) -> u32 {
        // SAFETY: the state is a registry.
        unsafe { ffi::bks_registry_next(&*self.state) }
    }

    /// The registry's own port.
    pub fn port(&self) -> u16 {
        // SAFETY: the state is a registry.
        unsafe { ffi::bks_registry_port(&*self.state) }
    }

    /// The registry as it lies in memory, to be stored or compared. It has no padding: equal
    /// registries are equal bytes.
    pub fn as_bytes(&self) -> &[u8; REGISTRY_SIZE] {
        &self.state.bytes
    }

    /// The registry that [`as_bytes`](Registry::as_bytes) of this version showed. Other bytes make
    /// a registry that nobody described: its calls are safe, but what 01 promises does not hold.
    ///
    /// # Panics
    /// If the library that was linked is of another version: see [`check`](crate::check).
    pub fn from_bytes(bytes: &[u8; REGISTRY_SIZE]) -> Registry {
        version::demand();
        let state = Box::new(ffi::bks_registry { bytes: *bytes });
        Registry { state }
    }
}

impl fmt::Debug for Registry {
    fn fmt(&self, f: &mut fmt::Formatter<'_>) -> fmt::Result {
        f.debug_struct("Registry")
            .field("port", &self.port())
            .field("next_creation", &self.next_creation())
            .field("registrations", &self.registrations().collect::<Vec<_>>())
            .finish()
    }
}

/// A registered node, as its ALIVE2 request gave it.
///
/// ```
/// use birkenschuh::{Registry, REGISTRY_OUTPUT};
///
/// let mut registry = Registry::new(4369, 4)?;
/// let alive2 = b"\x00\x11x\x11\x12M\x00\x00\x06\x00\x05\x00\x04ride\x00\x00";
/// registry.request(1, alive2, &mut [0; REGISTRY_OUTPUT])?;
///
/// let node = registry.registrations().next().unwrap();
/// assert_eq!((node.name.as_slice(), node.port, node.creation), (&b"ride"[..], 4370, 4));
/// assert_eq!((node.lowest, node.highest), (5, 6));
/// # Ok::<(), birkenschuh::Refusal>(())
/// ```
#[derive(Clone, PartialEq, Eq)]
pub struct Registration {
    /// The connection that registered the node, and whose end frees its place.
    pub connection: u32,
    /// Tells this node from an earlier one of the same name.
    pub creation: u32,
    /// Where the node listens.
    pub port: u16,
    /// 77 a normal node, 72 a hidden one; other numbers are kept as they came.
    pub kind: u8,
    /// 0 for TCP over IPv4; other numbers are kept as they came.
    pub protocol: u8,
    /// The highest version of the distribution protocol that the node speaks.
    pub highest: u16,
    /// The lowest version of the distribution protocol that the node speaks.
    pub lowest: u16,
    /// The name without "@" and host, 1 to 255 bytes.
    pub name: Vec<u8>,
    /// At most 128 bytes that the mapper hands on unread.
    pub extra: Vec<u8>,
}

impl fmt::Debug for Registration {
    fn fmt(&self, f: &mut fmt::Formatter<'_>) -> fmt::Result {
        f.debug_struct("Registration")
            .field("name", &Text(&self.name))
            .field("port", &self.port)
            .field("kind", &self.kind)
            .field("protocol", &self.protocol)
            .field("highest", &self.highest)
            .field("lowest", &self.lowest)
            .field("extra", &Text(&self.extra))
            .field("connection", &self.connection)
            .field("creation", &self.creation)
            .finish()
    }
}

impl From<&ffi::bks_registration> for Registration {
    fn from(entry: &ffi::bks_registration) -> Registration {
        Registration {
            connection: entry.connection,
            creation: entry.creation,
            port: entry.port,
            kind: entry.kind,
            protocol: entry.protocol,
            highest: entry.highest,
            lowest: entry.lowest,
            name: entry.name[..usize::from(entry.name_len)].to_vec(),
            extra: entry.extra[..usize::from(entry.extra_len)].to_vec(),
        }
    }
}
