//! A node's end of the mapper: the requests of real nodes and tools, written from their fields, and
//! the replies of the real mapper, read.

use birkenschuh::client::{self, Alive2Reply, Line, NamesReply, Port2Reply, REQUEST_OUTPUT};
use birkenschuh::{Refusal, Registry, REGISTRY_OUTPUT};

use crate::common::from_hex;
use crate::common::node::Fields;
use crate::common::tally::Tally;
use crate::text;

const REAL_NODES: &str = "epmd_01_real_nodes";
const PROBES: &str = "epmd_02_raw_probes";

/// A request with what the real mapper replied, which may be nothing.
#[derive(Clone)]
struct Exchange {
    request: Vec<u8>,
    reply: Vec<u8>,
}

fn exchanges(file: &str) -> Vec<Exchange> {
    let mut found: Vec<Exchange> = Vec::new();
    for line in text(file).lines() {
        if let Some(hex) = line.strip_prefix("> ") {
            let (request, reply) = (from_hex(hex).unwrap(), Vec::new());
            found.push(Exchange { request, reply });
        } else if let (Some(hex), Some(last)) = (line.strip_prefix("< "), found.last_mut()) {
            last.reply.extend(from_hex(hex).unwrap());
        }
    }
    found
}

/// Those with this tag, and with a reply.
fn answered(file: &str, tag: u8) -> Vec<Exchange> {
    let mut found = exchanges(file);
    found.retain(|seen| seen.request.get(2) == Some(&tag) && !seen.reply.is_empty());
    found
}

fn alive2(fields: &Fields) -> Result<Vec<u8>, Refusal> {
    let mut out = [0; REQUEST_OUTPUT];
    let written = client::alive2_request(&fields.node(), &mut out)?;
    Ok(out[..written].to_vec())
}

fn port_please2(name: &[u8]) -> Result<Vec<u8>, Refusal> {
    let mut out = [0; REQUEST_OUTPUT];
    let written = client::port_please2_request(name, &mut out)?;
    Ok(out[..written].to_vec())
}

/// Requests of real nodes, by what the captures say of them.
#[test]
fn requests_of_real_nodes_are_written_as_they_were() {
    let nodes = [("a", 35_219), ("b", 40_361), ("a", 36_105), ("a", 43_329)];
    let seen = answered(REAL_NODES, 120);
    assert_eq!(seen.len(), nodes.len());
    for (seen, (name, port)) in seen.iter().zip(nodes) {
        let node = Fields {
            port,
            ..Fields::of(name.as_bytes())
        };
        assert_eq!(alive2(&node).unwrap(), seen.request);
    }
    let names = ["a", "nobody", "a"];
    let seen = answered(REAL_NODES, 122);
    assert_eq!(seen.len(), names.len());
    for (seen, name) in seen.iter().zip(names) {
        assert_eq!(port_please2(name.as_bytes()).unwrap(), seen.request);
    }
    for seen in answered(REAL_NODES, 110) {
        let mut out = [0; REQUEST_OUTPUT];
        let written = client::names_request(&mut out).unwrap();
        assert_eq!(out[..written], seen.request);
    }
}

fn is_one_frame(request: &[u8]) -> bool {
    let length = usize::from(u16::from_be_bytes([request[0], request[1]]));
    request.len() == 2 + length
}

/// The fields of an ALIVE2 request, read at their places; nothing if the lengths are not theirs.
fn fields(request: &[u8]) -> Option<Fields> {
    let number = |at: usize| {
        Some(u16::from_be_bytes([
            *request.get(at)?,
            *request.get(at + 1)?,
        ]))
    };
    let name_end = 13 + usize::from(number(11)?);
    let extra_end = name_end + 2 + usize::from(number(name_end)?);
    let is_all = request.len() == extra_end && is_one_frame(request);
    is_all.then_some(Fields {
        port: number(3)?,
        kind: request[5],
        protocol: request[6],
        highest: number(7)?,
        lowest: number(9)?,
        name: request[13..name_end].to_vec(),
        extra: request[name_end + 2..].to_vec(),
    })
}

/// Probes at the borders: the same bytes where our mapper would take them, and else its number.
#[test]
fn probes_are_written_as_they_were_or_refused_as_the_mapper_does() {
    let mut tally = Tally::default();
    for Exchange { request, .. } in exchanges(PROBES) {
        let written = match request.get(2) {
            Some(120) => fields(&request).map(|fields| alive2(&fields)),
            Some(122) if is_one_frame(&request) => Some(port_please2(&request[3..])),
            _ => None,
        };
        let Some(written) = written else { continue };
        let mut mapper = Registry::new(4369, 1).unwrap();
        let served = mapper.request(1, &request, &mut [0; REGISTRY_OUTPUT]);
        tally.count(match served {
            Ok(_) => "served".to_string(),
            Err(refusal) => format!("refused with {}", refusal.number()),
        });
        assert_eq!(written, served.map(|_| request));
    }
    tally.assert_seen([
        "served",
        "refused with 5",
        "refused with 6",
        "refused with 7",
    ]);
}

/// What the real mapper says to a registration: the creation, or Result 1 with 99 in its place.
#[test]
fn alive2_replies_of_the_real_mapper() {
    let mut tally = Tally::default();
    for Exchange { reply, .. } in [answered(REAL_NODES, 120), answered(PROBES, 120)].concat() {
        let told = client::read_alive2(&reply).unwrap();
        let (what, rest) = match told {
            Alive2Reply::Registered { creation } => ("118", creation.to_be_bytes().to_vec()),
            Alive2Reply::RegisteredShort { creation } => ("121", creation.to_be_bytes().to_vec()),
            Alive2Reply::Failed {
                tag: 118,
                result: 1,
            } => ("118, an error", vec![0, 0, 0, 99]),
            Alive2Reply::Failed {
                tag: 121,
                result: 1,
            } => ("121, an error", vec![0, 99]),
            told => panic!("{told:?}"),
        };
        let tag: u8 = what[..3].parse().unwrap();
        let result = u8::from(what.len() > 3);
        assert_eq!(reply, [&[tag, result], &rest[..]].concat());
        tally.count(what);
    }
    tally.assert_seen(["118", "118, an error", "121", "121, an error"]);
}

/// A node that was found is the one that registered under the name, in all its fields.
#[test]
fn port2_replies_of_the_real_mapper() {
    for (file, times) in [(REAL_NODES, [1, 2]), (PROBES, [10, 1])] {
        let mut registered: Vec<Fields> = Vec::new();
        let (mut found, mut not_found) = (0, 0);
        for Exchange { request, reply } in exchanges(file) {
            match request.get(2) {
                Some(120) => registered.extend(fields(&request)),
                Some(122) if !reply.is_empty() => match client::read_port2(&reply).unwrap() {
                    Port2Reply::Found(node) => {
                        found += 1;
                        let mut all = registered.iter().map(Fields::node);
                        assert!(all.any(|registered| registered == node), "{node:?}");
                        assert!(request[3..].starts_with(node.name));
                    }
                    told => {
                        not_found += 1;
                        assert_eq!(told, Port2Reply::Failed { result: 1 });
                    }
                },
                _ => (),
            }
        }
        assert_eq!([found, not_found], times, "{file}");
    }
}

type Told<'a> = Result<Vec<(&'a [u8], u16)>, Refusal>;

fn one(name: &[u8], port: u16) -> Told<'_> {
    Ok(vec![(name, port)])
}

fn lines<'a>(told: &NamesReply<'a>) -> Vec<(&'a [u8], u16)> {
    assert_eq!(told.port(), 14_369);
    let line = |line: &Line<'a>| (line.name, line.port);
    told.lines().iter().map(line).collect()
}

/// Two short names have a second reading; a name with "@" is none by 01, though real nodes have such.
#[test]
fn names_replies_of_the_real_mapper() {
    let seen = [answered(REAL_NODES, 110), answered(PROBES, 110)].concat();
    let long = [b'u'; 255];
    let expected: Vec<Told> = vec![
        Err(Refusal::Ambiguous),
        Err(Refusal::Ambiguous),
        one(b"b", 40_361),
        Ok(vec![]),
        Ok(vec![]),
        Ok(vec![]),
        Err(Refusal::BadLength),
        one(b"a b", 4374),
        one(b"a\nb", 4374),
        one("é".as_bytes(), 4374),
        one(&long, 4374),
        Ok(vec![]),
        one(b"live1", 4375),
    ];
    let told: Vec<_> = (seen.iter())
        .map(|seen| client::read_names(&seen.reply).map(|told| lines(&told)))
        .collect();
    assert_eq!(told, expected);
}
