//! NAMES replies at every border of their reading.

use crate::calls::{Call, Reader};
use crate::common::names::name;
use crate::common::rng::{seed, Rng};
use crate::common::tally::Tally;
use crate::run;

/// What stands between the names of two lines that are read as one, with a port of one digit.
const BETWEEN: usize = b" at port 1\nname ".len();

pub fn line(name: &[u8], port: &str) -> Vec<u8> {
    [b"name ", name, b" at port ", port.as_bytes(), b"\n"].concat()
}

pub fn short(name: &str) -> Vec<u8> {
    line(name.as_bytes(), "1")
}

/// A line that joins with no other.
pub fn long() -> Vec<u8> {
    line(&[b'w'; 250], "7")
}

pub fn listed(lines: &[Vec<u8>]) -> Call {
    Reader::Names.of([&[0, 0, 0x11, 0x11], &lines.concat()[..]].concat())
}

/// How many were read, without lines, with some and with 64, and how many refused with 5 and 20.
pub fn times(tally: &Tally) -> [u64; 5] {
    [
        "names read: none",
        "names read: some",
        "names read: 64",
        "names not read: 5",
        "names not read: 20",
    ]
    .map(|what| tally.times(what))
}

#[test]
fn own_ports() {
    let ports = [
        0,
        1,
        4369,
        65_535,
        65_536,
        65_537,
        1 << 24,
        1 << 31,
        u32::MAX,
    ];
    let whole = ports.map(|port| Reader::Names.of(port.to_be_bytes()));
    let cut = (0..4).map(|length| Reader::Names.of(vec![0; length]));
    assert_eq!(
        times(&run(0, whole.into_iter().chain(cut))),
        [4, 0, 0, 5 + 4, 0]
    );
}

#[test]
fn ports() {
    let good = [
        "0", "1", "9", "10", "99", "100", "9999", "10000", "59999", "65529", "65535",
    ];
    let bad = [
        "", " ", "65536", "65540", "65600", "66000", "70000", "99999", "100000", "655350", "00",
        "01", "000", "065535", "00001", "+1", "-1", "1 ", " 1", "1\r", "0x1", "1.", "a", "/", ":",
        "1:", "١",
    ];
    let calls = good
        .iter()
        .chain(&bad)
        .map(|port| listed(&[line(b"ride", port)]));
    assert_eq!(times(&run(0, calls)), [0, 11, 0, bad.len() as u64, 0]);
}

/// Every byte in the place of each byte that is no name.
#[test]
fn every_byte_of_a_line() {
    let right = line(b"ride", "42");
    let calls = (0..right.len()).flat_map(|at| {
        let right = &right;
        (0..=255).map(move |byte| {
            let mut line = right.clone();
            line[at] = byte;
            listed(&[line])
        })
    });
    // Each byte but zero, "@" and those from 128 on may stand in a name; behind the first digit there
    // may be any other, and the first may be any but 0.
    assert_eq!(times(&run(0, calls))[1], 4 * 126 + 9 + 10 + 15);
}

#[test]
fn one_line_names() {
    let good: [&[u8]; 10] = [
        b"\n",
        b" ",
        b"name ",
        b"name",
        b" at port ",
        b" at port 1",
        b" at port 01\n",
        b"x at port 65536\nname y",
        "fähre".as_bytes(),
        &[b'n'; 255],
    ];
    let bad: [&[u8]; 8] = [
        b"",
        b"@",
        b"\0",
        b"a@b",
        b"\xff",
        b"\xc3",
        b"\xed\xa0\x80",
        &[b'n'; 256],
    ];
    let calls = good
        .iter()
        .chain(&bad)
        .map(|name| listed(&[line(name, "1")]));
    assert_eq!(times(&run(0, calls)), [0, 10, 0, 8, 0]);
    let mut rng = Rng(seed());
    let random = (0..20_000).map(|_| listed(&[line(&name(&mut rng), "1")]));
    let tally = run(seed(), random);
    tally.assert_seen(["names read: some", "names not read: 5"]);
}

/// Two lines, whose names joined have 1 to 512 bytes: more than one reading up to 255.
#[test]
fn joined_names() {
    for first in [1, 100, 238, 239] {
        let calls = (1..=255).map(|second| {
            listed(&[
                line(&vec![b'a'; first], "1"),
                line(&vec![b'b'; second], "1"),
            ])
        });
        let joined = 255usize.saturating_sub(first + BETWEEN) as u64;
        assert_eq!(times(&run(0, calls)), [0, 255 - joined, 0, 0, joined]);
    }
    // The first is no line of its own, since its port is none.
    let calls = [254, 255, 256, 257].map(|joined| {
        let second = vec![b'b'; joined - BETWEEN - 2];
        listed(&[line(b"a", "01"), line(&second, "1")])
    });
    assert_eq!(times(&run(0, calls)), [0, 2, 0, 2, 0]);
}

/// A piece that is no line of its own, since it has no name, between two lines: it goes with either, or
/// with both, as their lengths allow.
#[test]
fn joined_either_way() {
    let either = |a: usize, c: usize| {
        let lines = [vec![b'a'; a], vec![], vec![b'c'; c]].map(|name| line(&name, "1"));
        times(&run(0, [listed(&lines)]))
    };
    let (one, several, none) = ([0, 1, 0, 0, 0], [0, 0, 0, 0, 1], [0, 0, 0, 1, 0]);
    assert_eq!(either(1, 1), several);
    assert_eq!(either(120, 255 - 120 - 2 * BETWEEN), several);
    assert_eq!(either(120, 256 - 120 - 2 * BETWEEN), several);
    assert_eq!(either(255 - BETWEEN, 255 - BETWEEN), several);
    assert_eq!(either(255 - BETWEEN, 256 - BETWEEN), one);
    assert_eq!(either(256 - BETWEEN, 255 - BETWEEN), one);
    assert_eq!(either(256 - BETWEEN, 256 - BETWEEN), none);
}

#[test]
fn numbers_of_lines() {
    let calls = (0..=70).map(|lines| listed(&vec![long(); lines]));
    assert_eq!(times(&run(0, calls)), [1, 63, 1, 6, 0]);
    // Fifteen of these can be one line, whose name has 239 bytes: 960 are 64 lines in one way only.
    let short = |pieces| times(&run(0, [listed(&vec![short("a"); pieces])]));
    assert_eq!(short(2), [0, 0, 0, 0, 1]);
    assert_eq!(short(64), [0, 0, 0, 0, 1]);
    assert_eq!(short(65), [0, 0, 0, 0, 1]);
    assert_eq!(short(959), [0, 0, 0, 0, 1]);
    assert_eq!(short(960), [0, 0, 1, 0, 0]);
    assert_eq!(short(961), [0, 0, 0, 1, 0]);
    assert_eq!(short(4000), [0, 0, 0, 1, 0]);
}

/// `pieces` lines, all too long to join but for short ones at the places named.
fn mixed(pieces: usize, shorts: &[usize]) -> Call {
    let piece = |at: usize| match shorts.contains(&at) {
        true => short("s"),
        false => long(),
    };
    listed(&(0..pieces).map(piece).collect::<Vec<_>>())
}

/// Pieces that may be joined, near 64 of them: readings of more than 64 lines do not count.
#[test]
fn joined_near_64_lines() {
    // One pair, at the beginning, inside and at the end: 64 pieces are 64 lines or 63; 65 are 64 only.
    for pair in [[0, 1], [30, 31], [62, 63]] {
        let told = |pieces| times(&run(0, [mixed(pieces, &pair)]));
        assert_eq!(told(64), [0, 0, 0, 0, 1]);
        assert_eq!(told(65), [0, 0, 1, 0, 0]);
        assert_eq!(told(66), [0, 0, 0, 1, 0]);
    }
    // Two pairs: 65 pieces are 64 lines in two ways, and 66 in one.
    let two = |pieces| times(&run(0, [mixed(pieces, &[0, 1, 40, 41])]));
    assert_eq!(two(65), [0, 0, 0, 0, 1]);
    assert_eq!(two(66), [0, 0, 1, 0, 0]);
    assert_eq!(two(67), [0, 0, 0, 1, 0]);
    // Three in a row: 65 pieces are 64 lines in two ways and 63 in one, 66 are 64 in one.
    let row = |pieces| times(&run(0, [mixed(pieces, &[7, 8, 9])]));
    assert_eq!(row(65), [0, 0, 0, 0, 1]);
    assert_eq!(row(66), [0, 0, 1, 0, 0]);
    assert_eq!(row(67), [0, 0, 0, 1, 0]);
}

/// Longer than any reply of 64 lines.
#[test]
fn longer_than_any() {
    let longest = vec![line(&[b'n'; 255], "65535"); 64];
    let more = |more: &[u8]| listed(&[&longest[..], &[more.to_vec()]].concat());
    let behind = [&b"\n"[..], b"\0", b"x", &short("a"), &[b'n'; 50_000]];
    let calls = [listed(&longest)].into_iter().chain(behind.map(more));
    assert_eq!(times(&run(0, calls)), [0, 0, 1, 5, 0]);
}
