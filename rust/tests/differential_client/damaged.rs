//! Every reply of the model's mapper, cut at each byte, with each byte changed and with bytes behind,
//! to each of the readers.

use crate::calls::{Call, Reader};
use crate::common::frames::{port_please2, Alive2};
use crate::common::tally::Tally;
use crate::run;

/// What a byte is changed to: ends of ranges, what lines are made of, tags, pieces of UTF-8.
const VALUES: [u8; 18] = [
    0, 1, 2, 0x7f, 0x80, 0xc3, 0xff, b'\n', b' ', b'0', b'1', b'6', b'9', b'@', b'n', 118, 119, 121,
];

/// What stands behind.
const BEHIND: [&[u8]; 6] = [
    b"\0",
    b"\n",
    b" ",
    b"\0\0",
    b"name x at port 1\n",
    b"\x76\0\0\0\0\x04",
];

/// The model's mapper with some nodes, and what it replied so far.
struct Mapper {
    registry: model::Registry,
    replies: Vec<Vec<u8>>,
}

impl Mapper {
    fn new() -> Mapper {
        Mapper {
            registry: model::Registry::new(4369, 0x0102_0304).unwrap(),
            replies: Vec::new(),
        }
    }

    fn ask(&mut self, connection: u32, frame: &[u8]) {
        let mut out = vec![0; model::REGISTRY_OUTPUT];
        let written = self.registry.request(connection, frame, &mut out);
        out.truncate(written.expect("a right request"));
        self.replies.push(out);
    }
}

/// Replies of each kind: registered, not registered, found, not found, and names after each of them.
fn replies() -> Vec<Vec<u8>> {
    let (long, longer) = ([b'l'; 240], [b'm'; 255]);
    let nodes = [
        Alive2::of(b"ride"),
        Alive2 {
            highest: 5,
            extra: b"extra",
            ..Alive2::of("fähre".as_bytes())
        },
        Alive2 {
            port: 0,
            ..Alive2::of(&long)
        },
        Alive2 {
            port: 65_535,
            extra: &[0x5a; 128],
            ..Alive2::of(&longer)
        },
        Alive2::of(b"a\nname b at port 1"),
    ];
    let mut mapper = Mapper::new();
    mapper.ask(0, b"\x00\x01n");
    for (node, connection) in nodes.iter().zip(1..) {
        mapper.ask(connection, &node.frame());
        mapper.ask(99, &node.frame());
        mapper.ask(99, &port_please2(node.name));
        mapper.ask(99, b"\x00\x01n");
    }
    mapper.ask(99, &port_please2(b"nobody"));
    mapper.registry.close(2);
    mapper.registry.close(5);
    mapper.ask(99, b"\x00\x01n");
    mapper.replies
}

/// The longest reply of all.
fn longest() -> Vec<u8> {
    let mut mapper = Mapper::new();
    for connection in 0..64 {
        let name = format!("{connection:n>255}").into_bytes();
        let node = Alive2 {
            port: 65_535,
            ..Alive2::of(&name)
        };
        mapper.ask(connection, &node.frame());
    }
    mapper.ask(99, b"\x00\x01n");
    mapper.replies.pop().unwrap()
}

fn to_all(reply: Vec<u8>) -> [Call; 3] {
    Reader::ALL.map(|reader| reader.of(reply.clone()))
}

fn changed(reply: &[u8], at: usize, value: u8) -> Vec<u8> {
    let mut reply = reply.to_vec();
    reply[at] = value;
    reply
}

fn run_all(make: impl Fn(&[u8]) -> Vec<Vec<u8>>) -> Tally {
    let replies = replies();
    run(
        0,
        replies
            .iter()
            .flat_map(|reply| make(reply))
            .flat_map(to_all),
    )
}

#[test]
fn whole() {
    let tally = run_all(|reply| vec![reply.to_vec()]);
    let times = |whats: &[&str]| {
        whats
            .iter()
            .map(|what| tally.times(what))
            .collect::<Vec<_>>()
    };
    assert_eq!(
        times(&["alive2 read: 118", "alive2 read: 118, an error"]),
        [4, 4]
    );
    assert_eq!(
        times(&["alive2 read: 121", "alive2 read: 121, an error"]),
        [1, 1]
    );
    assert_eq!(times(&["port2 read", "port2 read: an error"]), [5, 1]);
    // None, ride alone, and the last: ride and two that are too long to join.
    assert_eq!(times(&["names read: none", "names read: some"]), [1, 2]);
    assert_eq!(times(&["names not read: 20"]), [4]);
}

/// A reply that is cut is never taken, but for names at the end of a line.
#[test]
fn cut() {
    let tally = run_all(|reply| {
        (0..reply.len())
            .map(|length| reply[..length].to_vec())
            .collect()
    });
    for what in ["alive2 read: 118", "alive2 read: 121", "port2 read"] {
        assert_eq!(tally.times(what), 0, "{what}");
    }
    tally.assert_seen(["names read: none", "names read: some", "names not read: 20"]);
}

#[test]
fn every_byte_changed() {
    let tally = run_all(|reply| {
        let each = |at: usize| {
            let near = [
                reply[at].wrapping_add(1),
                reply[at].wrapping_sub(1),
                reply[at] ^ 0x80,
            ];
            let values = VALUES.into_iter().chain(near);
            values.map(move |value| changed(reply, at, value))
        };
        (0..reply.len()).flat_map(each).collect()
    });
    tally.assert_seen([
        "alive2 read: 118",
        "alive2 not read: 4",
        "alive2 not read: 5",
    ]);
    tally.assert_seen(["port2 read", "port2 not read: 4", "port2 not read: 5"]);
    tally.assert_seen([
        "names read: some",
        "names not read: 5",
        "names not read: 20",
    ]);
}

#[test]
fn bytes_behind() {
    let tally = run_all(|reply| {
        BEHIND
            .iter()
            .map(|behind| [reply, behind].concat())
            .collect()
    });
    for what in ["alive2 read: 118", "alive2 read: 121", "port2 read"] {
        assert_eq!(tally.times(what), 0, "{what}");
    }
    tally.assert_seen([
        "names read: some",
        "names not read: 5",
        "names not read: 20",
    ]);
}

/// The longest reply cut at each byte: taken where a line ends, 64 lines included.
#[test]
fn longest_cut() {
    let reply = longest();
    let cuts = (0..=reply.len()).map(|length| Reader::Names.of(&reply[..length]));
    let tally = run(0, cuts);
    assert_eq!(tally.times("names read: none"), 1);
    assert_eq!(tally.times("names read: some"), 63);
    assert_eq!(tally.times("names read: 64"), 1);
    assert_eq!(tally.times("names not read: 5"), 17_604 - 64);
}

/// The longest reply with each byte changed, the values in turn.
#[test]
fn longest_changed() {
    let reply = longest();
    let change = |at: usize| Reader::Names.of(changed(&reply, at, VALUES[at % VALUES.len()]));
    let tally = run(0, (0..reply.len()).map(change));
    tally.assert_seen(["names read: 64", "names not read: 5"]);
}
