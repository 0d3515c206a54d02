//! What a node does at the mapper, as values and as lines of text.

use std::fmt;
use std::str::FromStr;

use crate::common::node::Fields;
use crate::common::{from_hex, number, to_hex};

#[derive(Clone, Debug)]
pub enum Call {
    /// A mapper without nodes.
    New {
        port: u16,
        first_creation: u32,
    },
    Register {
        connection: u32,
        fields: Fields,
    },
    Close {
        connection: u32,
    },
    Ask {
        name: Vec<u8>,
    },
    List,
}

impl fmt::Display for Call {
    fn fmt(&self, f: &mut fmt::Formatter<'_>) -> fmt::Result {
        match self {
            Call::New {
                port,
                first_creation,
            } => write!(f, "new {port} {first_creation}"),
            Call::Register { connection, fields } => write!(f, "register {connection} {fields}"),
            Call::Close { connection } => write!(f, "close {connection}"),
            Call::Ask { name } => write!(f, "ask {}", to_hex(name)),
            Call::List => write!(f, "list"),
        }
    }
}

impl FromStr for Call {
    type Err = String;

    fn from_str(line: &str) -> Result<Call, String> {
        let words: Vec<&str> = line.split_whitespace().collect();
        Ok(match words[..] {
            ["new", port, first_creation] => Call::New {
                port: number(port)?,
                first_creation: number(first_creation)?,
            },
            ["register", connection, ..] => Call::Register {
                connection: number(connection)?,
                fields: words[2..].join(" ").parse()?,
            },
            ["close", connection] => Call::Close {
                connection: number(connection)?,
            },
            ["ask", name] => Call::Ask {
                name: from_hex(name)?,
            },
            ["list"] => Call::List,
            _ => return Err("not a call".to_string()),
        })
    }
}

#[test]
fn a_call_is_read_as_it_is_written() {
    for line in [
        "new 4369 1",
        "register 7 4370 77 0 6 5 72696465 ff",
        "close 4294967295",
        "ask 72696465",
        "list",
    ] {
        assert_eq!(line.parse::<Call>().unwrap().to_string(), line);
    }
    assert!("register 7".parse::<Call>().is_err());
    assert!("list 1".parse::<Call>().is_err());
}
