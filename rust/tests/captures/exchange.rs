//! The handshakes of the captures, each with the messages of both sides in their order.

use crate::common::frames::{challenge_message, name_message, status, GOOD_FLAGS};
use crate::seen::{messages, Role, Seen, HANDSHAKES};

/// The cookie of every node in the captures but two.
pub const COOKIE: &[u8] = b"monster";

/// A name message and what followed it on the same connection.
pub struct Exchange {
    pub file: &'static str,
    pub messages: Vec<Seen>,
}

/// A digest that was sent, with what it is the digest of.
pub struct Digest {
    pub challenge: u32,
    pub cookie: &'static [u8],
    pub digest: [u8; 16],
}

pub fn exchanges(file: &'static str) -> Vec<Exchange> {
    let mut found: Vec<Exchange> = Vec::new();
    for seen in messages(file) {
        if seen.kind() == "send_name" {
            let messages = Vec::new();
            found.push(Exchange { file, messages });
        }
        let last = found.last_mut().expect("a name message is the first");
        last.messages.push(seen);
    }
    found
}

/// Every exchange that came to a reply.
pub fn replied() -> Vec<Exchange> {
    let mut found: Vec<Exchange> = HANDSHAKES.into_iter().flat_map(exchanges).collect();
    found.retain(|exchange| exchange.find("challenge_reply").is_some());
    found
}

impl Exchange {
    /// The first message of this kind.
    pub fn find(&self, kind: &str) -> Option<&Seen> {
        self.messages.iter().find(|seen| seen.kind() == kind)
    }

    pub fn get(&self, kind: &str) -> &Seen {
        self.find(kind).expect(kind)
    }

    /// Whether the acceptor took the reply.
    pub fn is_acknowledged(&self) -> bool {
        self.find("challenge_ack").is_some()
    }

    /// The initiator's cookie. The two replies that were refused are of another one, as their captures
    /// say.
    pub fn cookie(&self) -> &'static [u8] {
        match self.file {
            _ if self.is_acknowledged() => COOKIE,
            "hs_04_wrong_cookie" => b"other",
            "hs_11_alive" => b"wrong",
            file => panic!("{file} tells no cookie"),
        }
    }

    /// The challenge that this side sent, if it came to that.
    pub fn challenge(&self, role: Role) -> Option<u32> {
        let sent = match role {
            Role::Initiator => self.find("challenge_reply"),
            Role::Acceptor => self.find("send_challenge"),
        };
        sent.map(|seen| seen.number("challenge"))
    }

    /// Each side answers the challenge of the other.
    pub fn digests(&self) -> Vec<Digest> {
        let digest = |kind, challenged, cookie| {
            let sent = self.find(kind)?;
            Some(Digest {
                challenge: self.challenge(challenged)?,
                cookie,
                digest: *sent.frame.last_chunk()?,
            })
        };
        let reply = digest("challenge_reply", Role::Acceptor, self.cookie());
        let acknowledgement = digest("challenge_ack", Role::Initiator, COOKIE);
        reply.into_iter().chain(acknowledgement).collect()
    }

    /// The exchange as two endpoints can have it: where the papers refuse a name message or a challenge,
    /// one with good flags and a full name stands in for it, and `ok` for the status that gives a name.
    /// The numbers that the digests are of stay.
    pub fn between_endpoints(&self) -> Exchange {
        let messages = self.messages.iter().map(|seen| match seen.kind() {
            "send_name" | "send_challenge" if seen.endpoint().is_err() => self.stand_in(seen),
            "status" if seen.note.starts_with("status named:") => Seen {
                note: "status ok".to_string(),
                frame: status(b"ok"),
                ..*seen
            },
            _ => seen.clone(),
        });
        Exchange {
            file: self.file,
            messages: messages.collect(),
        }
    }

    /// A node without a name is called what the acceptor calls it.
    fn stand_in(&self, seen: &Seen) -> Seen {
        let flags = (seen.flags() | GOOD_FLAGS) & !(1 << 33);
        let named = if seen.name().contains(&b'@') {
            seen
        } else {
            self.get("status")
        };
        let (name, creation) = (named.name(), seen.number("creation"));
        let frame = match seen.kind() {
            "send_name" => name_message(flags, creation, name),
            _ => challenge_message(flags, seen.number("challenge"), creation, name),
        };
        let note = seen
            .note
            .replace(seen.word("flags"), &format!("16#{flags:x}"))
            .replace(seen.word("name"), named.word("name"));
        Seen {
            note,
            frame,
            ..*seen
        }
    }
}
