//! The mapper's requests against the independent implementation.

use crate::timing::{row, Contender};
use std::hint::black_box;

pub fn frame(body: &[u8]) -> Vec<u8> {
    let mut frame = (body.len() as u16).to_be_bytes().to_vec();
    frame.extend_from_slice(body);
    frame
}

fn alive2(name: &[u8]) -> Vec<u8> {
    let mut body = vec![120, 0x11, 0x12, 77, 0, 0, 6, 0, 5];
    body.extend_from_slice(&(name.len() as u16).to_be_bytes());
    body.extend_from_slice(name);
    body.extend_from_slice(&[0, 0]);
    frame(&body)
}

fn port_please2(name: &[u8]) -> Vec<u8> {
    frame(&[&[122], name].concat())
}

/// Both mappers with the same nodes, node i on connection i.
pub fn filled(names: &[Vec<u8>], out: &mut [u8]) -> (birkenschuh::Registry, model::Registry) {
    let mut ours = birkenschuh::Registry::new(4369, 1).expect("1 is a creation");
    let mut peer = model::Registry::new(4369, 1).expect("1 is a creation");
    for (i, name) in names.iter().enumerate() {
        let request = alive2(name);
        let reply = ours.request(i as u32, &request, out);
        assert_eq!(reply.map(|reply| reply.written), Ok(6));
        assert_eq!(peer.request(i as u32, &request, out), Ok(6));
    }
    (ours, peer)
}

/// The same frames, in the same order, to both mappers; then the connection is closed, if that is asked.
fn requests(case: &str, names: &[Vec<u8>], request: &[u8], close: bool) {
    let mut out = vec![0xa5; birkenschuh::REGISTRY_OUTPUT];
    let mut peer_out = out.clone();
    let (mut ours, mut peer) = filled(names, &mut out);
    let told = ours.request(99, request, &mut out).ok();
    let told = told.map(|reply| reply.written);
    assert_eq!(peer.request(99, request, &mut peer_out).ok(), told);
    assert_eq!(out[..told.unwrap_or(0)], peer_out[..told.unwrap_or(0)]);
    assert_eq!(ours.close(99), close);
    assert_eq!(peer.close(99), close);
    row(
        case,
        &mut [
            Contender {
                name: "ours",
                run: &mut || {
                    black_box(ours.request(99, black_box(request), &mut out).is_ok());
                    if close {
                        black_box(ours.close(99));
                    }
                },
            },
            Contender {
                name: "independent implementation",
                run: &mut || {
                    black_box(peer.request(99, black_box(request), &mut peer_out).is_ok());
                    if close {
                        black_box(peer.close(99));
                    }
                },
            },
        ],
    );
}

/// Registrations that fail, at a mapper that has these names.
fn failures(names: Vec<Vec<u8>>) {
    for (case, name) in [
        ("ALIVE2, Result 1, first of 64", &names[0]),
        ("ALIVE2, Result 1, last of 64", &names[63]),
        ("ALIVE2, Result 3", &b"ride".to_vec()),
    ] {
        requests(case, &names, &alive2(name), false);
    }
}

pub fn mapper() {
    let short = |i: usize| format!("node{i:02}").into_bytes();
    let long = |i: usize| format!("{:n>253}{i:02}", "").into_bytes();
    for count in [1, 64] {
        let names: Vec<Vec<u8>> = (0..count).map(short).collect();
        let last = &names[count - 1];
        requests(
            &format!("PORT_PLEASE2, last of {count}"),
            &names,
            &port_please2(last),
            false,
        );
        requests(
            &format!("PORT_PLEASE2, none of {count}"),
            &names,
            &port_please2(b"nobody"),
            false,
        );
    }
    let names: Vec<Vec<u8>> = (0..63).map(short).collect();
    requests(
        "ALIVE2 and close, 63 others",
        &names,
        &alive2(b"ride"),
        true,
    );
    failures((0..64).map(short).collect());
    let names: Vec<Vec<u8>> = (0..64).map(long).collect();
    requests(
        "PORT_PLEASE2, last of 64 of 255 bytes",
        &names,
        &port_please2(&names[63]),
        false,
    );
    requests("NAMES, 64 of 255 bytes", &names, &frame(&[110]), false);
    let inside = |i: usize| format!("{:n>126}{i:02}{:n>127}", "", "").into_bytes();
    let names: Vec<Vec<u8>> = (0..64).map(inside).collect();
    requests(
        "PORT_PLEASE2, last of 64 of 255 bytes that differ in the middle",
        &names,
        &port_please2(&names[63]),
        false,
    );
    requests("refused: no frame", &[], &[0, 2, 110], false);
    requests("refused: a bad name", &names, &port_please2(b"a@b"), false);
}
