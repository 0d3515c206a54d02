//! The mapper's calls, as values and as lines of text.

use std::fmt;
use std::str::FromStr;

use crate::common::{from_hex, number, to_hex};

#[derive(Clone, Debug)]
pub enum Call {
    /// `raw`: the following calls go to the functions over pointers, not to the safe wrapper.
    New {
        raw: bool,
        port: u16,
        first_creation: u32,
    },
    Request {
        connection: u32,
        room: usize,
        frame: Vec<u8>,
    },
    Close {
        connection: u32,
    },
}

impl fmt::Display for Call {
    fn fmt(&self, f: &mut fmt::Formatter<'_>) -> fmt::Result {
        match self {
            Call::New {
                raw,
                port,
                first_creation,
            } => write!(f, "new {raw} {port} {first_creation}"),
            Call::Request {
                connection,
                room,
                frame,
            } => {
                write!(f, "request {connection} {room} {}", to_hex(frame))
            }
            Call::Close { connection } => write!(f, "close {connection}"),
        }
    }
}

impl FromStr for Call {
    type Err = String;

    fn from_str(line: &str) -> Result<Call, String> {
        let words: Vec<&str> = line.split_whitespace().collect();
        Ok(match words[..] {
            ["new", raw, port, first_creation] => Call::New {
                raw: number(raw)?,
                port: number(port)?,
                first_creation: number(first_creation)?,
            },
            ["request", connection, room, frame] => Call::Request {
                connection: number(connection)?,
                room: number(room)?,
                frame: from_hex(frame)?,
            },
            ["close", connection] => Call::Close {
                connection: number(connection)?,
            },
            _ => return Err("not a call".to_string()),
        })
    }
}

#[test]
fn a_call_is_read_as_it_is_written() {
    for line in [
        "new true 4369 1",
        "request 7 17604 00016e",
        "request 0 0 -",
        "close 4294967295",
    ] {
        assert_eq!(line.parse::<Call>().unwrap().to_string(), line);
    }
    assert!("request 7 17604 0".parse::<Call>().is_err());
    assert!("close".parse::<Call>().is_err());
}
