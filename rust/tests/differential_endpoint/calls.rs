//! The endpoint's calls, as values and as lines of text.

use std::fmt;
use std::str::FromStr;

use crate::common::{from_hex, number, to_hex};

#[derive(Clone, Debug)]
pub enum Call {
    /// `raw`: the following calls go to the functions over pointers, not to the safe wrapper.
    New {
        raw: bool,
        name: Vec<u8>,
        flags: u64,
        creation: u32,
    },
    Start {
        name: Vec<u8>,
        room: usize,
    },
    Arrive,
    Close {
        slot: usize,
    },
    Message(Message),
}

#[derive(Clone, Debug)]
pub struct Message {
    pub slot: usize,
    pub frame: Vec<u8>,
    pub challenge: u32,
    pub own: Vec<u8>,
    pub standard: Vec<u8>,
    pub room: usize,
}

impl fmt::Display for Call {
    fn fmt(&self, f: &mut fmt::Formatter<'_>) -> fmt::Result {
        match self {
            Call::New {
                raw,
                name,
                flags,
                creation,
            } => {
                write!(f, "new {raw} {} {flags} {creation}", to_hex(name))
            }
            Call::Start { name, room } => write!(f, "start {} {room}", to_hex(name)),
            Call::Arrive => write!(f, "arrive"),
            Call::Close { slot } => write!(f, "close {slot}"),
            Call::Message(m) => {
                let (frame, own, standard) =
                    (to_hex(&m.frame), to_hex(&m.own), to_hex(&m.standard));
                let (slot, challenge, room) = (m.slot, m.challenge, m.room);
                write!(
                    f,
                    "message {slot} {frame} {challenge} {own} {standard} {room}"
                )
            }
        }
    }
}

impl FromStr for Call {
    type Err = String;

    fn from_str(line: &str) -> Result<Call, String> {
        let words: Vec<&str> = line.split_whitespace().collect();
        Ok(match words[..] {
            ["new", raw, name, flags, creation] => Call::New {
                raw: number(raw)?,
                name: from_hex(name)?,
                flags: number(flags)?,
                creation: number(creation)?,
            },
            ["start", name, room] => Call::Start {
                name: from_hex(name)?,
                room: number(room)?,
            },
            ["arrive"] => Call::Arrive,
            ["close", slot] => Call::Close {
                slot: number(slot)?,
            },
            ["message", slot, frame, challenge, own, standard, room] => Call::Message(Message {
                slot: number(slot)?,
                frame: from_hex(frame)?,
                challenge: number(challenge)?,
                own: from_hex(own)?,
                standard: from_hex(standard)?,
                room: number(room)?,
            }),
            _ => return Err("not a call".to_string()),
        })
    }
}

#[test]
fn a_call_is_read_as_it_is_written() {
    for line in [
        "new false 614062 17230201092 7",
        "start 634064 300",
        "arrive",
        "close 31",
        "message 3 0003736f6b 4294967295 - 6d 300",
    ] {
        assert_eq!(line.parse::<Call>().unwrap().to_string(), line);
    }
    assert!("message 3 0003736f6b 4294967295 - 6d"
        .parse::<Call>()
        .is_err());
    assert!("close x".parse::<Call>().is_err());
}
