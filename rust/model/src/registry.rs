//! 01, "The mapper", with the Results of 02, P2.

use std::io::Write;

use crate::bytes::{body, Reader, Short, Writer};
use crate::Refusal;

/// The output that a request needs.
pub const REGISTRY_OUTPUT: usize = 17_604;

const PLACES: usize = 64;
const LONGEST_EXTRA: usize = 128;

/// A taken place.
#[derive(Clone, Debug)]
#[allow(missing_docs)] // 01 has them.
pub struct Registration {
    pub connection: u32,
    pub creation: u32,
    pub port: u16,
    pub kind: u8,
    pub protocol: u8,
    pub highest: u16,
    pub lowest: u16,
    pub name: Short<255>,
    pub extra: Short<LONGEST_EXTRA>,
}

/// Why a node is not registered. The discriminant is the Result in 02.
#[derive(Clone, Copy)]
#[repr(u8)]
enum NotRegistered {
    NameInUse = 1,
    ConnectionHasRegistration = 2,
    NoPlace = 3,
}

/// The mapper's state.
///
/// ```
/// let mut registry = model::Registry::new(4369, 1).unwrap();
/// let mut out = [0; model::REGISTRY_OUTPUT];
/// assert_eq!(registry.request(9, b"\x00\x01n", &mut out), Ok(4));
/// assert_eq!(out[..4], [0, 0, 0x11, 0x11]);
/// ```
#[derive(Clone, Debug)]
pub struct Registry {
    port: u16,
    next_creation: u32,
    places: [Option<Registration>; PLACES],
}

/// Whether `name` is one that a node may register: 1 to 255 bytes of UTF-8, no zero byte, no "@".
pub fn is_node_name(name: &[u8]) -> bool {
    (1..=255).contains(&name.len())
        && !name.iter().any(|&byte| byte == 0 || byte == b'@')
        && std::str::from_utf8(name).is_ok()
}

pub(crate) fn node_name(name: &[u8]) -> Result<(), Refusal> {
    if is_node_name(name) {
        Ok(())
    } else {
        Err(Refusal::BadName)
    }
}

/// Whether a node may register these fields.
pub(crate) fn allowed(name: &[u8], extra: &[u8], highest: u16, lowest: u16) -> Result<(), Refusal> {
    if extra.len() > LONGEST_EXTRA {
        return Err(Refusal::BadLength);
    }
    node_name(name)?;
    if lowest > highest || lowest > 6 || highest < 5 {
        return Err(Refusal::BadVersions);
    }
    Ok(())
}

impl Registry {
    /// A registry with all places free.
    pub fn new(port: u16, first_creation: u32) -> Result<Registry, Refusal> {
        if first_creation == 0 {
            return Err(Refusal::ZeroCreation);
        }
        Ok(Registry {
            port,
            next_creation: first_creation,
            places: [const { None }; PLACES],
        })
    }

    /// Answers a request: how many bytes were written.
    pub fn request(
        &mut self,
        connection: u32,
        frame: &[u8],
        out: &mut [u8],
    ) -> Result<usize, Refusal> {
        if out.len() < REGISTRY_OUTPUT {
            return Err(Refusal::OutputTooShort);
        }
        let mut out = Writer::new(out);
        match body(frame)? {
            [120, fields @ ..] => self.alive2(connection, fields, &mut out)?,
            [122, name @ ..] => self.port_please2(name, &mut out)?,
            [110] => self.names(&mut out),
            [110, ..] => return Err(Refusal::BadLength),
            [100 | 107 | 115, ..] => return Err(Refusal::NotServed),
            _ => return Err(Refusal::UnknownTag),
        }
        Ok(out.written())
    }

    /// Frees the place of a connection. Whether there was one.
    pub fn close(&mut self, connection: u32) -> bool {
        let mut places = self.places.iter_mut();
        match places.find(|place| place.as_ref().is_some_and(|at| at.connection == connection)) {
            Some(place) => place.take().is_some(),
            None => false,
        }
    }

    /// The registration at a place.
    pub fn entry(&self, place: usize) -> Option<&Registration> {
        self.places.get(place)?.as_ref()
    }

    /// The creation that the next registration gets.
    pub fn next_creation(&self) -> u32 {
        self.next_creation
    }

    /// The registry's own port.
    pub fn port(&self) -> u16 {
        self.port
    }

    fn taken(&self) -> impl Iterator<Item = &Registration> {
        self.places.iter().flatten()
    }

    fn alive2(&mut self, connection: u32, fields: &[u8], out: &mut Writer) -> Result<(), Refusal> {
        let mut fields = Reader(fields);
        let port = fields.u16()?;
        let kind = fields.u8()?;
        let protocol = fields.u8()?;
        let highest = fields.u16()?;
        let lowest = fields.u16()?;
        let name = fields.counted()?;
        let extra = fields.counted()?;
        fields.end()?;
        allowed(name, extra, highest, lowest)?;
        let creation = self.register(Registration {
            connection,
            creation: self.next_creation,
            port,
            kind,
            protocol,
            highest,
            lowest,
            name: Short::new(name),
            extra: Short::new(extra),
        });
        let result = creation.map_or_else(|reason| reason as u8, |_| 0);
        if highest >= 6 {
            let creation = creation.unwrap_or(0);
            out.put(&[118, result]).put(&creation.to_be_bytes());
        } else {
            let short = creation.map_or(0, |creation| 1 + (creation % 3) as u16);
            out.put(&[121, result]).put(&short.to_be_bytes());
        }
        Ok(())
    }

    /// "Result 1 for a name in use, 2 for a connection that has a registration, 3 for no place, tested
    /// in that order"; otherwise the lowest free place is filled with the next creation, which steps.
    fn register(&mut self, new: Registration) -> Result<u32, NotRegistered> {
        if self.taken().any(|at| *at.name == *new.name) {
            return Err(NotRegistered::NameInUse);
        }
        if self.taken().any(|at| at.connection == new.connection) {
            return Err(NotRegistered::ConnectionHasRegistration);
        }
        let mut places = self.places.iter_mut();
        let free = places.find(|place| place.is_none());
        *free.ok_or(NotRegistered::NoPlace)? = Some(new);
        let creation = self.next_creation;
        self.next_creation = creation.checked_add(1).unwrap_or(1);
        Ok(creation)
    }

    fn port_please2(&self, name: &[u8], out: &mut Writer) -> Result<(), Refusal> {
        node_name(name)?;
        match self.taken().find(|at| *at.name == *name) {
            Some(at) => out
                .put(&[119, 0])
                .put(&at.port.to_be_bytes())
                .put(&[at.kind, at.protocol])
                .put(&at.highest.to_be_bytes())
                .put(&at.lowest.to_be_bytes())
                .put(&(at.name.len() as u16).to_be_bytes())
                .put(&at.name)
                .put(&(at.extra.len() as u16).to_be_bytes())
                .put(&at.extra),
            None => out.put(&[119, 1]),
        };
        Ok(())
    }

    fn names(&self, out: &mut Writer) {
        out.put(&u32::from(self.port).to_be_bytes());
        for at in self.taken() {
            let mut port = [0; 5];
            let mut rest = &mut port[..];
            write!(rest, "{}", at.port).expect("a 16-bit number has at most five digits");
            let digits = 5 - rest.len();
            out.put(b"name ")
                .put(&at.name)
                .put(b" at port ")
                .put(&port[..digits])
                .put(b"\n");
        }
    }
}
