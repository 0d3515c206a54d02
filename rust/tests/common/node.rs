//! A node's fields, as values and as words of a line.

use std::fmt;
use std::str::FromStr;

use super::{from_hex, number, to_hex};

#[derive(Clone, Debug, PartialEq, Eq)]
pub struct Fields {
    pub port: u16,
    pub kind: u8,
    pub protocol: u8,
    pub highest: u16,
    pub lowest: u16,
    pub name: Vec<u8>,
    pub extra: Vec<u8>,
}

impl Fields {
    /// A normal node of today.
    pub fn of(name: &[u8]) -> Fields {
        Fields {
            port: 4370,
            kind: 77,
            protocol: 0,
            highest: 6,
            lowest: 5,
            name: name.to_vec(),
            extra: Vec::new(),
        }
    }

    pub fn node(&self) -> birkenschuh::client::Node<'_> {
        birkenschuh::client::Node {
            port: self.port,
            kind: self.kind,
            protocol: self.protocol,
            highest: self.highest,
            lowest: self.lowest,
            name: &self.name,
            extra: &self.extra,
        }
    }

    pub fn model(&self) -> model::Node<'_> {
        model::Node {
            port: self.port,
            kind: self.kind,
            protocol: self.protocol,
            highest: self.highest,
            lowest: self.lowest,
            name: &self.name,
            extra: &self.extra,
        }
    }
}

impl fmt::Display for Fields {
    fn fmt(&self, f: &mut fmt::Formatter<'_>) -> fmt::Result {
        let Fields {
            port,
            kind,
            protocol,
            highest,
            lowest,
            ..
        } = self;
        let (name, extra) = (to_hex(&self.name), to_hex(&self.extra));
        write!(
            f,
            "{port} {kind} {protocol} {highest} {lowest} {name} {extra}"
        )
    }
}

impl FromStr for Fields {
    type Err = String;

    fn from_str(text: &str) -> Result<Fields, String> {
        let words: Vec<&str> = text.split_whitespace().collect();
        let [port, kind, protocol, highest, lowest, name, extra] = words[..] else {
            return Err("not a node's fields".to_string());
        };
        Ok(Fields {
            port: number(port)?,
            kind: number(kind)?,
            protocol: number(protocol)?,
            highest: number(highest)?,
            lowest: number(lowest)?,
            name: from_hex(name)?,
            extra: from_hex(extra)?,
        })
    }
}
