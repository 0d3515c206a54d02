//! The library's client, through the safe wrapper and over pointers, beside the model's.

use std::ops::Range;

use birkenschuh::client::{self, Alive2Reply, Port2Reply};
use birkenschuh::ffi::{bks_names_line, bks_names_reply};
use birkenschuh::Refusal;

use crate::calls::{Call, Reader, Request};
use crate::common::differ::{outputs, same, Compared};
use crate::common::tally::Tally;
use crate::face;

/// Bytes behind the lent output, which nobody may touch.
const GUARD: usize = 64;

#[derive(Default)]
pub struct Pair {
    ours: Vec<u8>,
    expected: Vec<u8>,
    calls: usize,
}

impl Compared for Pair {
    type Call = Call;

    fn apply(&mut self, call: &Call, tally: &mut Tally) -> Result<(), String> {
        self.calls += 1;
        match call {
            Call::Write { room, request } => self.write(*room, request, tally),
            Call::Read { reader, reply } => match reader {
                Reader::Alive2 => read_alive2(reply, tally),
                Reader::Port2 => read_port2(reply, tally),
                Reader::Names => read_names(reply, tally),
            },
        }
    }
}

impl Pair {
    fn write(&mut self, room: usize, request: &Request, tally: &mut Tally) -> Result<(), String> {
        // Another pattern at each call: a stray byte has but one chance in 256 to look right.
        let pattern = (self.calls * 37) as u8 ^ 0xa5;
        self.expected.clear();
        self.expected.resize(room + GUARD, pattern);
        let told = write_model(request, &mut self.expected[..room]);
        for write in [write_safe, face::write] {
            self.ours.clear();
            self.ours.resize(room + GUARD, pattern);
            same("the answer", write(request, &mut self.ours[..room]), told)?;
            outputs(&self.ours, &self.expected)?;
        }
        let what = match request {
            Request::Alive2(_) => "alive2",
            Request::PortPlease2(_) => "port_please2",
            Request::Names => "names",
        };
        match told {
            Ok(_) => tally.count(format!("{what} written")),
            Err(refusal) => tally.count(format!("{what} not written: {refusal}")),
        }
        Ok(())
    }
}

fn write_safe(request: &Request, out: &mut [u8]) -> Result<usize, u32> {
    match request {
        Request::Alive2(fields) => client::alive2_request(&fields.node(), out),
        Request::PortPlease2(name) => client::port_please2_request(name, out),
        Request::Names => client::names_request(out),
    }
    .map_err(Refusal::number)
}

fn write_model(request: &Request, out: &mut [u8]) -> Result<usize, u32> {
    match request {
        Request::Alive2(fields) => model::alive2_request(&fields.model(), out),
        Request::PortPlease2(name) => model::port_please2_request(name, out),
        Request::Names => model::names_request(out),
    }
    .map_err(model::Refusal::number)
}

fn read_alive2(reply: &[u8], tally: &mut Tally) -> Result<(), String> {
    let expected = model::read_alive2(reply).map_err(model::Refusal::number);
    same(
        "what is told over pointers",
        face::read_alive2(reply),
        face::alive2_told(&expected),
    )?;
    let safe = client::read_alive2(reply).map(|told| match told {
        Alive2Reply::Registered { creation } => {
            model::Alive2Reply::Registered { tag: 118, creation }
        }
        Alive2Reply::RegisteredShort { creation } => model::Alive2Reply::Registered {
            tag: 121,
            creation: creation.into(),
        },
        Alive2Reply::Failed { tag, result } => model::Alive2Reply::Error { tag, result },
    });
    same("what is told", safe.map_err(Refusal::number), expected)?;
    tally.count(match expected {
        Ok(model::Alive2Reply::Registered { tag, .. }) => format!("alive2 read: {tag}"),
        Ok(model::Alive2Reply::Error { tag, .. }) => format!("alive2 read: {tag}, an error"),
        Err(refusal) => format!("alive2 not read: {refusal}"),
    });
    Ok(())
}

fn read_port2(reply: &[u8], tally: &mut Tally) -> Result<(), String> {
    let expected = model::read_port2(reply).map_err(model::Refusal::number);
    same(
        "what is told over pointers",
        face::read_port2(reply),
        face::port2_told(&expected),
    )?;
    let safe = client::read_port2(reply).map(|told| match told {
        Port2Reply::Found(node) => model::Port2Reply::Found {
            port: node.port,
            kind: node.kind,
            protocol: node.protocol,
            highest: node.highest,
            lowest: node.lowest,
            name: place(reply, node.name),
            extra: place(reply, node.extra),
        },
        Port2Reply::Failed { result } => model::Port2Reply::Error { result },
    });
    tally.count(match &expected {
        Ok(model::Port2Reply::Found { .. }) => "port2 read".to_string(),
        Ok(model::Port2Reply::Error { .. }) => "port2 read: an error".to_string(),
        Err(refusal) => format!("port2 not read: {refusal}"),
    });
    same("what is told", safe.map_err(Refusal::number), expected)
}

fn read_names(reply: &[u8], tally: &mut Tally) -> Result<(), String> {
    let expected = model::read_names(reply).map_err(model::Refusal::number);
    let told = face::read_names(reply);
    let to_be_told = face::names_told(&expected);
    same(
        "what is told over pointers",
        shown(&told),
        shown(&to_be_told),
    )?;
    let safe = client::read_names(reply).map(|told| model::NamesReply {
        port: told.port(),
        lines: (told.lines().iter())
            .map(|line| model::NamesLine {
                name: place(reply, line.name),
                port: line.port,
            })
            .collect(),
    });
    tally.count(match &expected {
        Ok(told) => match told.lines.len() {
            0 => "names read: none".to_string(),
            64 => "names read: 64".to_string(),
            _ => "names read: some".to_string(),
        },
        Err(refusal) => format!("names not read: {refusal}"),
    });
    same("what is told", safe.map_err(Refusal::number), expected)
}

/// All of the struct but the zero lines at its end.
fn shown(told: &bks_names_reply) -> (u32, u16, u32, &[bks_names_line]) {
    let last = told.line.iter().rposition(|line| *line != face::NO_LINE);
    let lines = &told.line[..last.map_or(0, |last| last + 1)];
    (told.refusal, told.port, told.count, lines)
}

/// Where a part of a reply lies in it.
fn place(reply: &[u8], part: &[u8]) -> Range<usize> {
    let at = part.as_ptr() as usize - reply.as_ptr() as usize;
    at..at + part.len()
}
