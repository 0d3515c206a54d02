//! What the port mapper's reply says, for a host that does not look into bytes.

use std::fmt;

const ALIVE2_REQ: u8 = 120;
const PORT_PLEASE2_REQ: u8 = 122;
const ALIVE2_X_RESP: u8 = 118;

/// What [`Registry::request`](crate::Registry::request) tells.
///
/// ```
/// use birkenschuh::{Asked, Registry, Reply, REGISTRY_OUTPUT};
///
/// let mut registry = Registry::new(4369, 4)?;
/// let mut out = [0; REGISTRY_OUTPUT];
/// let reply = registry.request(1, b"\x00\x05zride", &mut out)?;
/// assert_eq!(reply, Reply { asked: Asked::PortPlease2 { found: false }, written: 2 });
/// # Ok::<(), birkenschuh::Refusal>(())
/// ```
#[derive(Clone, Copy, Debug, PartialEq, Eq)]
pub struct Reply {
    /// What was asked, and what came of it.
    pub asked: Asked,
    /// How many output bytes were written: the reply, to be sent.
    pub written: usize,
}

/// What was asked of the port mapper, and what came of it.
#[derive(Clone, Copy, Debug, PartialEq, Eq)]
pub enum Asked {
    /// A registration. The host keeps the connection open where it succeeded: its end is the node's.
    Alive2 {
        /// Whether the node is registered, and if not, why.
        result: Alive2Result,
        /// The creation that the reply tells: all of it to a node that speaks version 6, 1 to 3 to
        /// another; 0 where the node is not registered.
        creation: u32,
    },
    /// A look-up by name.
    PortPlease2 {
        /// Whether the name is registered.
        found: bool,
    },
    /// The list of all names.
    Names,
}

/// What came of a registration: the Result of the reply. The discriminants are the numbers of the
/// specification (01, and P2 of 02), and the tests are made in their order. With any but
/// `Registered` nothing has changed, and the creation that is told is 0.
///
/// ```
/// use birkenschuh::Alive2Result;
///
/// assert_eq!(Alive2Result::NameInUse.number(), 1);
/// assert_eq!(Alive2Result::of(3), Some(Alive2Result::NoPlace));
/// assert_eq!(Alive2Result::of(4), None);
/// assert_eq!(Alive2Result::NoPlace.to_string(), "all 64 places are taken");
/// ```
#[derive(Clone, Copy, Debug, PartialEq, Eq, PartialOrd, Ord, Hash)]
#[repr(u8)]
pub enum Alive2Result {
    /// The node is registered, at the lowest free place.
    Registered = 0,
    /// The name is registered, by this connection or another.
    NameInUse = 1,
    /// The name is not, but this connection has a registration.
    ConnectionRegistered = 2,
    /// Neither, but all 64 places are taken.
    NoPlace = 3,
}

impl Alive2Result {
    /// All Results, in the order of their numbers.
    pub const ALL: [Alive2Result; 4] = [
        Alive2Result::Registered,
        Alive2Result::NameInUse,
        Alive2Result::ConnectionRegistered,
        Alive2Result::NoPlace,
    ];

    /// The Result of a number, if this library's mapper tells it. Another mapper may mean
    /// something else by it: Erlang's own tells 1 whatever the reason.
    pub fn of(number: u8) -> Option<Alive2Result> {
        Alive2Result::ALL.get(usize::from(number)).copied()
    }

    /// The specification's number.
    pub fn number(self) -> u8 {
        self as u8
    }

    /// The Result that the library told.
    fn told(number: u8) -> Alive2Result {
        Alive2Result::of(number).expect("the mapper's Result is 0 to 3")
    }
}

impl fmt::Display for Alive2Result {
    fn fmt(&self, f: &mut fmt::Formatter<'_>) -> fmt::Result {
        f.write_str(match self {
            Alive2Result::Registered => "the node is registered",
            Alive2Result::NameInUse => "the name is registered",
            Alive2Result::ConnectionRegistered => "this connection has a registration",
            Alive2Result::NoPlace => "all 64 places are taken",
        })
    }
}

impl Asked {
    /// What a request that was served asked, by its frame and its reply.
    pub(crate) fn of(frame: &[u8], reply: &[u8]) -> Asked {
        match (frame[2], reply) {
            (ALIVE2_REQ, &[ALIVE2_X_RESP, result, a, b, c, d, ..]) => Asked::Alive2 {
                result: Alive2Result::told(result),
                creation: u32::from_be_bytes([a, b, c, d]),
            },
            (ALIVE2_REQ, &[_, result, a, b, ..]) => Asked::Alive2 {
                result: Alive2Result::told(result),
                creation: u16::from_be_bytes([a, b]).into(),
            },
            (PORT_PLEASE2_REQ, &[_, result, ..]) => Asked::PortPlease2 { found: result == 0 },
            _ => Asked::Names,
        }
    }
}

#[cfg(test)]
mod tests {
    use super::*;

    #[test]
    fn results_are_those_of_the_papers_in_order() {
        let numbers = Alive2Result::ALL.map(Alive2Result::number);
        assert_eq!(numbers, [0, 1, 2, 3]);
        for result in Alive2Result::ALL {
            assert_eq!(Alive2Result::of(result.number()), Some(result));
        }
        assert!((4..=255).all(|number| Alive2Result::of(number).is_none()));
    }

    #[test]
    fn meanings_are_single_lines_and_all_different() {
        let mut meanings = Alive2Result::ALL.map(|result| result.to_string()).to_vec();
        assert!(meanings
            .iter()
            .all(|text| !text.is_empty() && !text.contains('\n')));
        meanings.sort();
        meanings.dedup();
        assert_eq!(meanings.len(), Alive2Result::ALL.len());
    }

    /// Each Result in each form of the reply.
    #[test]
    fn alive2_is_told_by_its_reply() {
        for result in Alive2Result::ALL {
            let number = result.number();
            let told = Asked::of(&[0, 1, 120], &[118, number, 1, 2, 3, 4]);
            let creation = 0x0102_0304;
            assert_eq!(told, Asked::Alive2 { result, creation });
            let told = Asked::of(&[0, 1, 120], &[121, number, 1, 2]);
            let creation = 0x0102;
            assert_eq!(told, Asked::Alive2 { result, creation });
        }
    }
}
