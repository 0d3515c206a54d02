//! How a registration finds the registry: all that its Result depends on.

use std::fmt;

/// Who has the name that is asked for.
#[derive(Clone, Copy, PartialEq, Eq)]
pub enum Name {
    Free,
    Own,
    Others,
}

#[derive(Clone, Copy, PartialEq, Eq)]
pub struct Situation {
    pub name: Name,
    /// Whether the connection has a registration.
    pub registered: bool,
    /// Whether all 64 places are taken.
    pub full: bool,
}

const fn situation(name: Name, registered: bool, full: bool) -> Situation {
    Situation {
        name,
        registered,
        full,
    }
}

impl Situation {
    /// All that there are, with 02's Result: a connection that has the name has a registration.
    pub const ALL: [(Situation, u8); 10] = [
        (situation(Name::Free, false, false), 0),
        (situation(Name::Free, false, true), 3),
        (situation(Name::Free, true, false), 2),
        (situation(Name::Free, true, true), 2),
        (situation(Name::Own, true, false), 1),
        (situation(Name::Own, true, true), 1),
        (situation(Name::Others, false, false), 1),
        (situation(Name::Others, false, true), 1),
        (situation(Name::Others, true, false), 1),
        (situation(Name::Others, true, true), 1),
    ];

    /// How a frame finds the registry if it asks for a registration.
    pub fn before(registry: &model::Registry, from: u32, frame: &[u8]) -> Option<Situation> {
        let (&[_, _, 120, ..], Some([high, low])) = (frame, frame.get(11..13)) else {
            return None;
        };
        let length = usize::from(u16::from_be_bytes([*high, *low]));
        let name = frame.get(13..13 + length)?;
        let mut found = situation(Name::Free, false, true);
        for place in 0..64 {
            match registry.entry(place) {
                None => found.full = false,
                Some(at) => {
                    found.registered |= at.connection == from;
                    if *at.name == *name {
                        let own = at.connection == from;
                        found.name = if own { Name::Own } else { Name::Others };
                    }
                }
            }
        }
        Some(found)
    }
}

impl fmt::Display for Situation {
    fn fmt(&self, f: &mut fmt::Formatter<'_>) -> fmt::Result {
        f.write_str(match self.name {
            Name::Free => "name free",
            Name::Own => "name its own",
            Name::Others => "name another's",
        })?;
        f.write_str(match self.registered {
            true => ", connection registered",
            false => ", connection not registered",
        })?;
        f.write_str(if self.full { ", full" } else { ", room" })
    }
}
