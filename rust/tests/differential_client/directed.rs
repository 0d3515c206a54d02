//! Requests that go straight to a border.

use crate::calls::{Call, Request};
use crate::common::node::Fields;
use crate::run;

fn alive2(room: usize, fields: Fields) -> Call {
    let request = Request::Alive2(fields);
    Call::Write { room, request }
}

fn port_please2(room: usize, name: Vec<u8>) -> Call {
    let request = Request::PortPlease2(name);
    Call::Write { room, request }
}

/// Every output up to some bytes more than the frame has.
#[test]
fn every_room() {
    let longest = Fields {
        extra: vec![7; 128],
        ..Fields::of(&[b'n'; 255])
    };
    let ride = (0..=40).map(|room| alive2(room, Fields::of(b"ride")));
    let longest = (0..=420).map(|room| alive2(room, longest.clone()));
    let tally = run(0, ride.chain(longest));
    assert_eq!(tally.times("alive2 not written: 1"), 19 + 398);
    assert_eq!(tally.times("alive2 written"), 22 + 23);

    let ride = (0..=40).map(|room| port_please2(room, b"ride".to_vec()));
    let longest = (0..=300).map(|room| port_please2(room, vec![b'n'; 255]));
    let names = (0..=20).map(|room| {
        let request = Request::Names;
        Call::Write { room, request }
    });
    let tally = run(0, ride.chain(longest).chain(names));
    assert_eq!(tally.times("port_please2 not written: 1"), 7 + 258);
    assert_eq!(tally.times("port_please2 written"), 34 + 43);
    assert_eq!(tally.times("names not written: 1"), 3);
    assert_eq!(tally.times("names written"), 18);
}

/// Names of each length around the rule's borders, and where 16 bits of a length wrap round to a
/// short one: with an output for all of it, or for the short one alone.
#[test]
fn name_lengths() {
    let around = (0..=3).chain(250..=260);
    let lengths = around.chain([
        65_520, 65_521, 65_522, 65_523, 65_535, 65_536, 65_540, 70_000,
    ]);
    let calls = lengths.flat_map(|length| {
        let name = vec![b'n'; length];
        [20, 400, 80_000].into_iter().flat_map(move |room| {
            [
                alive2(room, Fields::of(&name)),
                port_please2(room, name.clone()),
            ]
        })
    });
    let tally = run(0, calls);
    // Lengths 1 to 3 in every room, 250 to 255 in all but the first.
    for what in ["alive2", "port_please2"] {
        assert_eq!(tally.times(&format!("{what} written")), 3 * 3 + 2 * 6);
        assert_eq!(tally.times(&format!("{what} not written: 1")), 6);
        assert_eq!(
            tally.times(&format!("{what} not written: 6")),
            3 * (1 + 5 + 8)
        );
    }
}

#[test]
fn extra_lengths() {
    let lengths = (0..=2)
        .chain(125..=131)
        .chain([255, 256, 384, 65_535, 65_536, 65_664, 70_000]);
    let calls = lengths.flat_map(|length| {
        let extra = vec![b'e'; length];
        let fields = |name: &[u8]| Fields {
            extra: extra.clone(),
            ..Fields::of(name)
        };
        // Extra comes first: before a name that is none, and before the room.
        [alive2(80_000, fields(b"e")), alive2(0, fields(b"@"))]
    });
    let tally = run(0, calls);
    assert_eq!(tally.times("alive2 written"), 3 + 4);
    assert_eq!(tally.times("alive2 not written: 6"), 3 + 4);
    assert_eq!(tally.times("alive2 not written: 5"), 2 * (3 + 7));
}

/// Every combination of versions around the rule's borders.
#[test]
fn versions() {
    let versions = [0, 1, 4, 5, 6, 7, 8, 255, 256, 65_534, 65_535];
    let pairs = versions.map(|highest| versions.map(|lowest| (highest, lowest)));
    let calls = pairs.into_iter().flatten().map(|(highest, lowest)| {
        let fields = Fields {
            highest,
            lowest,
            ..Fields::of(b"v")
        };
        alive2(16, fields)
    });
    let tally = run(0, calls);
    // Lowest 0, 1, 4, 5 with highest 5 or more, and lowest 6 with highest 6 or more.
    let good = 4 * 8 + 7;
    assert_eq!(tally.times("alive2 written"), good);
    assert_eq!(tally.times("alive2 not written: 7"), 11 * 11 - good);
}

/// Every combination of what can be wrong: the first in the order is told.
#[test]
fn order() {
    let calls = (0..16).map(|wrong| {
        let is_wrong = |bit: u32| wrong >> bit & 1 == 1;
        let fields = Fields {
            extra: vec![0; if is_wrong(0) { 129 } else { 128 }],
            lowest: if is_wrong(2) { 7 } else { 6 },
            ..Fields::of(if is_wrong(1) { b"\xff" } else { b"n" })
        };
        alive2(if is_wrong(3) { 143 } else { 144 }, fields)
    });
    let tally = run(0, calls);
    let times = [5, 6, 7, 1].map(|refusal| tally.times(&format!("alive2 not written: {refusal}")));
    assert_eq!((times, tally.times("alive2 written")), ([8, 4, 2, 1], 1));
}

/// Every byte as a name, and every port, type and protocol byte.
#[test]
fn bytes() {
    let names = (0..=255u8).map(|byte| port_please2(4, vec![byte]));
    let fields = (0..=255u8).map(|byte| {
        let fields = Fields {
            port: u16::from_be_bytes([byte, !byte]),
            kind: byte.wrapping_add(1),
            protocol: byte.wrapping_mul(3),
            extra: vec![byte],
            ..Fields::of(b"n")
        };
        alive2(17, fields)
    });
    let tally = run(0, names.chain(fields));
    assert_eq!(tally.times("port_please2 written"), 128 - 2);
    assert_eq!(tally.times("alive2 written"), 256);
}
