//! The handshake messages of the captures, with what their comments say.

use birkenschuh::{Endpoint, Refusal};

use crate::common::from_hex;
use crate::text;

pub const HANDSHAKES: [&str; 12] = [
    "hs_01_b_connects_to_a",
    "hs_03_hidden_b_to_a",
    "hs_04_wrong_cookie",
    "hs_10_flags_to_acceptor",
    "hs_11_alive",
    "hs_21_simultaneous_python",
    "hs_30_dynamic_python_initiator",
    "traffic_01_no_atom_cache",
    "traffic_04_p3_flags_plus_26",
    "door_01_handshakes",
    "door_02_handshakes",
    "door_07_nameless",
];

/// With which word the comment of a handshake message begins.
const KINDS: [&str; 5] = [
    "send_name",
    "status",
    "send_challenge",
    "challenge_reply",
    "challenge_ack",
];

#[derive(Clone, Copy, Debug, PartialEq, Eq)]
pub enum Role {
    Initiator,
    Acceptor,
}

/// A handshake message with who sent it and the comment that says what it is.
#[derive(Clone, PartialEq, Eq)]
pub struct Seen {
    pub by: Role,
    pub note: String,
    pub frame: Vec<u8>,
}

impl Seen {
    pub fn kind(&self) -> &str {
        self.note.split(' ').next().unwrap()
    }

    /// The word behind `key` in the comment.
    pub fn word(&self, key: &str) -> &str {
        let (_, rest) = self.note.split_once(&format!(" {key} ")).expect(key);
        rest.split(' ').next().unwrap()
    }

    pub fn number(&self, key: &str) -> u32 {
        self.word(key).parse().unwrap()
    }

    pub fn flags(&self) -> u64 {
        u64::from_str_radix(&self.word("flags")[3..], 16).unwrap()
    }

    pub fn name(&self) -> &[u8] {
        let quoted = self.word("name").as_bytes();
        &quoted[1..quoted.len() - 1]
    }

    /// An endpoint with the name, flags and creation of the node that sent this.
    pub fn endpoint(&self) -> Result<Endpoint, Refusal> {
        Endpoint::new(self.name(), self.flags(), self.number("creation"))
    }
}

/// The handshake messages of a file, in their order.
pub fn messages(file: &str) -> Vec<Seen> {
    let mut note = "";
    let mut found = Vec::new();
    let text = text(file);
    for line in text.lines() {
        let (by, hex) = match line.split_at_checked(2) {
            Some(("> ", hex)) => (Role::Initiator, hex),
            Some(("< ", hex)) => (Role::Acceptor, hex),
            Some(("# ", comment)) if !comment.starts_with("MD5 check") => {
                note = comment;
                continue;
            }
            _ => continue,
        };
        let seen = Seen {
            by,
            note: std::mem::take(&mut note).to_string(),
            frame: from_hex(hex).unwrap(),
        };
        if KINDS.contains(&seen.kind()) {
            found.push(seen);
        }
    }
    found
}

/// Those whose comment begins with `kind`, of a file.
pub fn seen(file: &str, kind: &str) -> Vec<Seen> {
    let mut found = messages(file);
    found.retain(|seen| seen.kind() == kind);
    found
}

pub fn all(kind: &str) -> Vec<Seen> {
    HANDSHAKES
        .iter()
        .flat_map(|file| seen(file, kind))
        .collect()
}
