//! A node's end of the mapper: requests written, replies read.

use crate::mapper::{filled, frame};
use crate::plain;
use crate::timing::{row, Contender};
use birkenschuh::client::{self, Node, REQUEST_OUTPUT};
use birkenschuh::REGISTRY_OUTPUT;
use std::hint::black_box;

const INDEPENDENT: &str = "independent implementation";

/// The same request by both, into outputs of their own.
fn written(
    case: &str,
    mut ours: impl FnMut(&mut [u8]) -> Option<usize>,
    mut peer: impl FnMut(&mut [u8]) -> Option<usize>,
) {
    let (mut out, mut peer_out) = ([0xa5; REQUEST_OUTPUT], [0xa5; REQUEST_OUTPUT]);
    assert!(ours(&mut out).is_some());
    assert_eq!(ours(&mut out), peer(&mut peer_out));
    assert_eq!(out, peer_out);
    let mut ours = || {
        black_box(ours(black_box(&mut out)));
    };
    let mut peer = || {
        black_box(peer(black_box(&mut peer_out)));
    };
    versus(case, &mut ours, "plain Rust", &mut peer);
}

fn versus(case: &str, ours: &mut dyn FnMut(), name: &str, peer: &mut dyn FnMut()) {
    let ours = Contender {
        name: "ours",
        run: ours,
    };
    row(case, &mut [ours, Contender { name, run: peer }]);
}

pub fn requests() {
    for (length, extra) in [(6, 0), (255, 128)] {
        let (name, extra) = (vec![b'r'; length], vec![b'e'; extra]);
        let node = Node {
            port: 4370,
            name: &name,
            extra: &extra,
            ..Node::default()
        };
        written(
            &format!(
                "ALIVE2 written, name of {length} bytes, extra of {}",
                extra.len()
            ),
            |out| client::alive2_request(black_box(&node), out).ok(),
            |out| plain::alive2_request(black_box(&node), out),
        );
        written(
            &format!("PORT_PLEASE2 written, name of {length} bytes"),
            |out| client::port_please2_request(black_box(&name), out).ok(),
            |out| plain::port_please2_request(black_box(&name), out),
        );
    }
    written(
        "NAMES written",
        |out| client::names_request(out).ok(),
        plain::names_request,
    );
}

pub fn replies() {
    let alive2 = [118, 0, 0, 0, 0, 4];
    versus(
        "reply 118 read",
        &mut || {
            black_box(client::read_alive2(black_box(&alive2)).is_ok());
        },
        INDEPENDENT,
        &mut || {
            black_box(model::read_alive2(black_box(&alive2)).is_ok());
        },
    );
    let head = [119, 0, 0x11, 0x12, 77, 0, 0, 6, 0, 5, 0, 255];
    let port2 = [&head[..], &[b'r'; 255], &[0, 128], &[b'e'; 128]].concat();
    assert!(client::read_port2(&port2).is_ok() && model::read_port2(&port2).is_ok());
    versus(
        "reply 119 read, name of 255 bytes, extra of 128",
        &mut || {
            black_box(client::read_port2(black_box(&port2)).is_ok());
        },
        INDEPENDENT,
        &mut || {
            black_box(model::read_port2(black_box(&port2)).is_ok());
        },
    );
}

/// Reading what a mapper with these names writes, beside the independent implementation and beside
/// writing it.
fn listing(case: &str, names: &[Vec<u8>]) {
    let mut out = vec![0xa5; REGISTRY_OUTPUT];
    let (mut registry, _) = filled(names, &mut out);
    let request = frame(&[110]);
    let length = registry
        .request(99, &request, &mut out)
        .expect("names")
        .written;
    let reply = out[..length].to_vec();
    let (ours, peer) = (client::read_names(&reply), model::read_names(&reply));
    assert_eq!(
        ours.map(|it| it.lines().len()).map_err(|it| it.number()),
        peer.map(|it| it.lines.len()).map_err(|it| it.number())
    );
    row(
        &format!("NAMES reply read, {case}"),
        &mut [
            Contender {
                name: "ours",
                run: &mut || {
                    black_box(client::read_names(black_box(&reply)).is_ok());
                },
            },
            Contender {
                name: INDEPENDENT,
                run: &mut || {
                    black_box(model::read_names(black_box(&reply)).is_ok());
                },
            },
            Contender {
                name: "writing it",
                run: &mut || {
                    black_box(registry.request(99, black_box(&request), &mut out).is_ok());
                },
            },
        ],
    );
}

/// Text that takes longest of all that were tried: a line may begin at every "name " and end at every
/// " at port 1", and hardly a name between them is plain ASCII, which is told faster.
const CROWDED: &str = "éname name at port 1\nname name at port 1\nname ";

/// A reply of so many bytes with that text alone.
fn crowded(length: usize) -> Vec<u8> {
    let text = CROWDED.bytes().cycle();
    [0; 4].into_iter().chain(text).take(length).collect()
}

/// A name of 255 bytes with that text, which a mapper takes and so writes.
fn crowded_name(i: usize) -> Vec<u8> {
    let mut name = CROWDED.repeat(253 / CROWDED.len()).into_bytes();
    name.resize(253, b'x');
    [&name, format!("{i:02}").as_bytes()].concat()
}

pub fn names() {
    let short = |i: usize| format!("node{i:02}").into_bytes();
    let long = |i: usize| format!("{:n>253}{i:02}", "").into_bytes();
    let names = |count: usize, name: fn(usize) -> Vec<u8>| (0..count).map(name).collect::<Vec<_>>();
    listing("1 of 6 bytes", &names(1, short));
    listing("2 of 6 bytes, refused with 20", &names(2, short));
    listing("64 of 6 bytes, refused with 20", &names(64, short));
    listing("64 of 255 bytes", &names(64, long));
    listing("64 of 255 bytes, most candidates", &names(64, crowded_name));
    for length in [8_804, REGISTRY_OUTPUT] {
        let (whole, half) = (crowded(length), crowded(4 + (length - 4) / 2));
        versus(
            &format!("NAMES reply read, most candidates, {length} bytes"),
            &mut || {
                black_box(client::read_names(black_box(&whole)).is_ok());
            },
            &format!("the same, {} bytes", half.len()),
            &mut || {
                black_box(client::read_names(black_box(&half)).is_ok());
            },
        );
    }
}
