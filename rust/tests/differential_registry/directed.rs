//! Sequences that go straight to a border.

use birkenschuh::REGISTRY_OUTPUT;

use crate::calls::Call;
use crate::common::differ::{attempt, report};
use crate::common::frames::{frame, port_please2, Alive2};
use crate::common::tally::Tally;
use crate::pair::Pair;

fn request(connection: u32, frame: Vec<u8>) -> Call {
    Call::Request {
        connection,
        room: REGISTRY_OUTPUT,
        frame,
    }
}

/// Runs the calls through both faces of the library.
fn run(first_creation: u32, calls: impl Fn() -> Vec<Call>) -> Tally {
    let mut tally = Tally::default();
    for raw in [false, true] {
        let mut all = vec![Call::New {
            raw,
            port: 65_535,
            first_creation,
        }];
        all.extend(calls());
        let mut pair = Pair::default();
        for at in 0..all.len() {
            if attempt(&mut pair, &all[at], &mut tally).is_err() {
                all.truncate(at + 1);
                report::<Pair>(0, all);
            }
        }
    }
    tally
}

/// Every combination of versions around the rule's borders.
#[test]
fn versions() {
    let versions = [0, 1, 4, 5, 6, 7, 8, 255, 256, 65_534, 65_535];
    let tally = run(1, || {
        let mut calls = Vec::new();
        for highest in versions {
            for lowest in versions {
                let alive2 = Alive2 {
                    highest,
                    lowest,
                    ..Alive2::of(b"v")
                };
                calls.extend([request(1, alive2.frame()), Call::Close { connection: 1 }]);
            }
        }
        calls
    });
    // Lowest 0, 1, 4, 5 with highest 5 or more, and lowest 6 with highest 6 or more.
    assert_eq!(tally.times("reply 121 result 0"), 2 * 4);
    assert_eq!(tally.times("reply 118 result 0"), 2 * 5 * 7);
    assert_eq!(tally.times("refusal 7"), 2 * (11 * 11 - 4 - 5 * 7));
}

/// Every tag, alone and before other bytes.
#[test]
fn tags() {
    let tally = run(1, || {
        let alone = (0..=255).map(|tag| request(1, frame(&[tag])));
        alone
            .chain((0..=255).map(|tag| request(1, frame(&[tag, b'x', 0]))))
            .collect()
    });
    assert_eq!(tally.times("refusal 4"), 2 * 2 * (256 - 6));
    assert_eq!(tally.times("refusal 8"), 2 * 2 * 3);
    assert_eq!(tally.times("names, none"), 2);
}

/// Sixty-four nodes with the longest names, and a sixty-fifth; then one place is freed and taken.
#[test]
fn full_registry() {
    let name = |number: u32| format!("{number:0>255}").into_bytes();
    let alive2 = |number| {
        Alive2 {
            port: 65_535,
            extra: &[7; 128],
            ..Alive2::of(&name(number))
        }
        .frame()
    };
    let tally = run(u32::MAX - 9, || {
        let mut calls: Vec<Call> = (0..65).map(|n| request(n, alive2(n))).collect();
        calls.push(request(0, b"\x00\x01n".to_vec()));
        calls.extend([
            Call::Close { connection: 64 },
            Call::Close { connection: 17 },
        ]);
        calls.extend([
            request(64, alive2(3)),
            request(16, alive2(64)),
            request(64, alive2(64)),
        ]);
        calls.push(request(0, b"\x00\x01n".to_vec()));
        calls.extend((0..65).map(|n| request(99, port_please2(&name(n)))));
        calls
    });
    assert_eq!(tally.times("reply 118 result 0"), 2 * 65);
    for result in [1, 2, 3] {
        assert_eq!(tally.times(&format!("reply 118 result {result}")), 2);
    }
    assert_eq!(tally.times("names, longest reply"), 2 * 2);
    assert_eq!(tally.times("creation wrapped"), 2);
}

/// Names and extras of each length around the rule's borders, and outputs around the stated room.
#[test]
fn lengths() {
    let tally = run(1, || {
        let mut calls = Vec::new();
        for length in (0..=3).chain(250..=260) {
            let name = vec![b'n'; length];
            calls.extend([
                request(1, Alive2::of(&name).frame()),
                request(1, port_please2(&name)),
            ]);
            calls.push(Call::Close { connection: 1 });
        }
        for length in (0..=2).chain(125..=131) {
            let extra = vec![0; length];
            let alive2 = Alive2 {
                extra: &extra,
                ..Alive2::of(b"e")
            };
            calls.extend([request(1, alive2.frame()), request(1, port_please2(b"e"))]);
            calls.push(Call::Close { connection: 1 });
        }
        for room in [0, 1, 4, 17_602, 17_603, 17_604, 17_605] {
            for frame in [&b"\x00\x01n"[..], b"\x00\x01y", b""] {
                calls.push(Call::Request {
                    connection: 1,
                    room,
                    frame: frame.to_vec(),
                });
            }
        }
        calls
    });
    assert_eq!(tally.times("refusal 6"), 2 * 2 * 6);
    assert_eq!(tally.times("refusal 5"), 2 * 3);
    assert_eq!(tally.times("refusal 1"), 2 * 5 * 3);
}

/// Every cut of a right request, with the length as it was and made right.
#[test]
fn cuts() {
    let alive2 = Alive2 {
        extra: b"extra",
        ..Alive2::of(b"cut")
    }
    .frame();
    let tally = run(1, || {
        let cut = |length: usize| request(1, alive2[..length].to_vec());
        let mended = |length: usize| request(1, frame(&alive2[2..length]));
        let whole = alive2.len();
        let mut calls: Vec<Call> = (0..whole).map(cut).chain((2..whole).map(mended)).collect();
        for more in 1..=3 {
            calls.push(request(1, [&alive2[..], &vec![0; more]].concat()));
            calls.push(request(1, frame(&[&alive2[2..], &vec![0; more]].concat())));
        }
        calls
    });
    assert_eq!(tally.times("refusal 3"), 2 * (23 + 1 + 3));
    assert_eq!(tally.times("refusal 5"), 2 * (23 - 3 + 3));
}

/// Bodies up to the longest, and lent bytes whose count wraps round to the frame's length.
#[test]
fn long_frames() {
    let alive2 = |name: usize, extra: usize| {
        let (name, extra) = (vec![b'n'; name], vec![b'e'; extra]);
        let (name, extra) = (&name[..], &extra[..]);
        Alive2 {
            extra,
            ..Alive2::of(name)
        }
        .frame()
    };
    let tally = run(1, || {
        let mut calls = vec![
            request(1, alive2(65_522, 0)),
            request(1, alive2(65_394, 128)),
            request(1, port_please2(&[b'n'; 65_534])),
            request(1, alive2(1, 65_521)),
            request(1, alive2(0, 65_522)),
            request(1, frame(&[110; 65_535])),
        ];
        for frame in [&b"\x00\x01n"[..], b"\x00\x02zn", b"\x00\x00"] {
            calls.extend([65_535, 65_536].map(|more| request(1, [frame, &vec![0; more]].concat())));
        }
        calls
    });
    assert_eq!(tally.times("refusal 6"), 2 * 3);
    assert_eq!(tally.times("refusal 5"), 2 * 3);
    assert_eq!(tally.times("refusal 3"), 2 * 6);
}
