//! Requests to the port mapper.

use birkenschuh::{Refusal, Registry, REGISTRY_OUTPUT};

use crate::common::from_hex;
use crate::common::tally::Tally;
use crate::text;

/// A request with what the real mapper replied, or the end of a node.
enum Event {
    Request {
        connection: u32,
        request: Vec<u8>,
        reply: Vec<u8>,
    },
    FirstNodeStops,
}

fn events() -> Vec<Event> {
    let text = text("epmd_01_real_nodes");
    let mut events = Vec::new();
    let mut connection = 0;
    for line in text.lines() {
        if let Some(port) = line.strip_prefix("# connection from client port ") {
            connection = port.parse().unwrap();
        } else if line.starts_with("# -- node a stopped") {
            events.push(Event::FirstNodeStops);
        } else if let Some(hex) = line.strip_prefix("> ") {
            let (request, reply) = (from_hex(hex).unwrap(), Vec::new());
            events.push(Event::Request {
                connection,
                request,
                reply,
            });
        } else if let (Some(hex), Some(Event::Request { reply, .. })) =
            (line.strip_prefix("< "), events.last_mut())
        {
            reply.extend(from_hex(hex).unwrap());
        }
    }
    events
}

/// Real nodes and tools at the mapper: each request is answered, with the bytes of the real mapper
/// where 01 says no other.
#[test]
fn requests_of_real_nodes_are_answered() {
    let mut registry = Registry::new(14_369, 1).unwrap();
    let (mut creation, mut tally) = (0u32, Tally::default());
    for event in events() {
        let Event::Request {
            connection,
            request,
            reply,
        } = event
        else {
            assert!(registry.close(36_632), "the connection of the first block");
            continue;
        };
        let mut out = [0; REGISTRY_OUTPUT];
        let answer = registry.request(connection, &request, &mut out);
        let ours = answer.map(|reply| &out[..reply.written]);
        tally.count(format!("tag {}", request[2]));
        match request[2] {
            120 => {
                let fails = reply[1] == 1;
                creation += u32::from(!fails);
                let told = if fails { 0 } else { creation };
                assert_eq!(ours.unwrap(), [&reply[..2], &told.to_be_bytes()].concat());
            }
            122 => assert_eq!(ours.unwrap(), reply),
            110 => assert_eq!(sorted_lines(ours.unwrap()), sorted_lines(&reply)),
            _ => assert_eq!(ours, Err(Refusal::NotServed)),
        }
    }
    let times = [120, 122, 110, 100].map(|tag| tally.times(&format!("tag {tag}")));
    assert_eq!(times, [4, 3, 3, 2]);
}

/// A NAMES reply as a set: the real mapper has the newest name first.
fn sorted_lines(reply: &[u8]) -> (u32, Vec<Vec<u8>>) {
    let (port, names) = reply.split_first_chunk().unwrap();
    let mut lines: Vec<Vec<u8>> = names
        .split_inclusive(|byte| *byte == b'\n')
        .map(<[u8]>::to_vec)
        .collect();
    lines.sort();
    (u32::from_be_bytes(*port), lines)
}
