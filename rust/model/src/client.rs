//! 02, P1: a node's end of the mapper, but for the reading of NAMES.

use std::ops::Range;

use crate::bytes::Reader;
use crate::registry::{allowed, node_name};
use crate::Refusal;

/// What a node registers.
#[derive(Clone, Copy, Debug)]
#[allow(missing_docs)] // 01 has them.
pub struct Node<'a> {
    pub port: u16,
    pub kind: u8,
    pub protocol: u8,
    pub highest: u16,
    pub lowest: u16,
    pub name: &'a [u8],
    pub extra: &'a [u8],
}

/// Writes ALIVE2_REQ: how many bytes were written.
pub fn alive2_request(node: &Node<'_>, out: &mut [u8]) -> Result<usize, Refusal> {
    allowed(node.name, node.extra, node.highest, node.lowest)?;
    let mut body = vec![120];
    body.extend(node.port.to_be_bytes());
    body.extend([node.kind, node.protocol]);
    body.extend(node.highest.to_be_bytes());
    body.extend(node.lowest.to_be_bytes());
    for run in [node.name, node.extra] {
        body.extend((run.len() as u16).to_be_bytes());
        body.extend(run);
    }
    write_frame(&body, out)
}

/// Writes PORT_PLEASE2_REQ: how many bytes were written.
pub fn port_please2_request(name: &[u8], out: &mut [u8]) -> Result<usize, Refusal> {
    node_name(name)?;
    write_frame(&[b"z", name].concat(), out)
}

/// Writes NAMES_REQ: how many bytes were written.
pub fn names_request(out: &mut [u8]) -> Result<usize, Refusal> {
    write_frame(b"n", out)
}

/// A body of allowed fields behind its length, which has 16 bits then.
fn write_frame(body: &[u8], out: &mut [u8]) -> Result<usize, Refusal> {
    let length = 2 + body.len();
    let frame = out.get_mut(..length).ok_or(Refusal::OutputTooShort)?;
    frame[..2].copy_from_slice(&(body.len() as u16).to_be_bytes());
    frame[2..].copy_from_slice(body);
    Ok(length)
}

/// What a reply 118 or 121 says.
#[derive(Clone, Copy, Debug, PartialEq, Eq)]
#[allow(missing_docs)]
pub enum Alive2Reply {
    Registered { tag: u8, creation: u32 },
    Error { tag: u8, result: u8 },
}

/// Reads a reply 118 or 121.
pub fn read_alive2(reply: &[u8]) -> Result<Alive2Reply, Refusal> {
    let mut fields = Reader(reply);
    let tag = fields.u8()?;
    if tag != 118 && tag != 121 {
        return Err(Refusal::UnknownTag);
    }
    let result = fields.u8()?;
    let creation = match tag {
        118 => fields.u32()?,
        _ => fields.u16()?.into(),
    };
    fields.end()?;
    Ok(match result {
        0 => Alive2Reply::Registered { tag, creation },
        _ => Alive2Reply::Error { tag, result },
    })
}

/// What a reply 119 says. Name and extra are parts of it, counted from its first byte.
#[derive(Clone, Debug, PartialEq, Eq)]
#[allow(missing_docs)]
pub enum Port2Reply {
    Found {
        port: u16,
        kind: u8,
        protocol: u8,
        highest: u16,
        lowest: u16,
        name: Range<usize>,
        extra: Range<usize>,
    },
    Error {
        result: u8,
    },
}

/// Reads a reply 119.
pub fn read_port2(reply: &[u8]) -> Result<Port2Reply, Refusal> {
    let mut fields = Reader(reply);
    if fields.u8()? != 119 {
        return Err(Refusal::UnknownTag);
    }
    let result = fields.u8()?;
    if result > 0 {
        fields.end()?;
        return Ok(Port2Reply::Error { result });
    }
    let found = Port2Reply::Found {
        port: fields.u16()?,
        kind: fields.u8()?,
        protocol: fields.u8()?,
        highest: fields.u16()?,
        lowest: fields.u16()?,
        name: counted(&mut fields, reply)?,
        extra: counted(&mut fields, reply)?,
    };
    fields.end()?;
    Ok(found)
}

/// Where the next counted run lies in the reply.
fn counted(fields: &mut Reader<'_>, reply: &[u8]) -> Result<Range<usize>, Refusal> {
    let length = fields.counted()?.len();
    let end = reply.len() - fields.0.len();
    Ok(end - length..end)
}
