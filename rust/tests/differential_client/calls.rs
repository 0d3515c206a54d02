//! The client's calls, as values and as lines of text.

use std::fmt;
use std::str::FromStr;

use crate::common::node::Fields;
use crate::common::{from_hex, number, to_hex};

#[derive(Clone, Debug)]
pub enum Call {
    Write { room: usize, request: Request },
    Read { reader: Reader, reply: Vec<u8> },
}

#[derive(Clone, Debug)]
pub enum Request {
    Alive2(Fields),
    PortPlease2(Vec<u8>),
    Names,
}

#[derive(Clone, Copy, Debug, PartialEq, Eq)]
pub enum Reader {
    Alive2,
    Port2,
    Names,
}

impl Reader {
    pub const ALL: [Reader; 3] = [Reader::Alive2, Reader::Port2, Reader::Names];

    pub fn word(self) -> &'static str {
        match self {
            Reader::Alive2 => "alive2",
            Reader::Port2 => "port2",
            Reader::Names => "names",
        }
    }

    pub fn of(self, reply: impl Into<Vec<u8>>) -> Call {
        Call::Read {
            reader: self,
            reply: reply.into(),
        }
    }
}

impl fmt::Display for Call {
    fn fmt(&self, f: &mut fmt::Formatter<'_>) -> fmt::Result {
        match self {
            Call::Write { room, request } => match request {
                Request::Alive2(fields) => write!(f, "write {room} alive2 {fields}"),
                Request::PortPlease2(name) => {
                    write!(f, "write {room} port_please2 {}", to_hex(name))
                }
                Request::Names => write!(f, "write {room} names"),
            },
            Call::Read { reader, reply } => write!(f, "read {} {}", reader.word(), to_hex(reply)),
        }
    }
}

impl FromStr for Call {
    type Err = String;

    fn from_str(line: &str) -> Result<Call, String> {
        let words: Vec<&str> = line.split_whitespace().collect();
        let (room, request) = match words[..] {
            ["write", room, "alive2", ..] => (room, Request::Alive2(words[3..].join(" ").parse()?)),
            ["write", room, "port_please2", name] => (room, Request::PortPlease2(from_hex(name)?)),
            ["write", room, "names"] => (room, Request::Names),
            ["read", word, reply] => {
                let mut all = Reader::ALL.into_iter();
                let reader = all.find(|reader| reader.word() == word);
                return Ok(reader.ok_or("not a reader")?.of(from_hex(reply)?));
            }
            _ => return Err("not a call".to_string()),
        };
        Ok(Call::Write {
            room: number(room)?,
            request,
        })
    }
}

#[test]
fn a_call_is_read_as_it_is_written() {
    for line in [
        "write 19 alive2 4370 77 0 6 5 72696465 -",
        "write 0 port_please2 72696465",
        "write 3 names",
        "read alive2 760000000004",
        "read port2 7701",
        "read names -",
    ] {
        assert_eq!(line.parse::<Call>().unwrap().to_string(), line);
    }
    assert!("write 3 alive2 1 2 3".parse::<Call>().is_err());
    assert!("read name 00".parse::<Call>().is_err());
}
