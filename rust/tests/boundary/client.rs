//! The boundary of a node's end of the mapper: null pointers, how the structs lie, which field is
//! which, what is lent, and what a log would show.

use std::mem::offset_of;
use std::ptr::{null, null_mut};

use birkenschuh::client::{self, Line, NamesReply, Node, Port2Reply, REQUEST_OUTPUT};
use birkenschuh::ffi::{self, bks_alive2_reply, bks_names_line, bks_names_reply, bks_port2_reply};
use birkenschuh::{Refusal, PLACES};

use crate::common::frames::Alive2;

/// Null with length 0 is an empty run, wherever a run is lent.
#[test]
fn null_is_an_empty_run() {
    let mut out = [0xa5; REQUEST_OUTPUT];
    let (name, at, room) = (b"n".as_ptr(), out.as_mut_ptr(), out.len());
    let alive2 = |name, name_len, extra, extra_len, at, room| {
        // SAFETY: each run is a slice, or empty.
        let told = unsafe {
            ffi::bks_alive2_request(1, 2, 3, 6, 5, name, name_len, extra, extra_len, at, room)
        };
        (told.refusal, told.written)
    };
    assert_eq!(alive2(null(), 0, null(), 0, at, room), (6, 0));
    let extra = [7; 129];
    assert_eq!(
        alive2(null(), 0, extra.as_ptr(), 129, null_mut(), 0),
        (5, 0)
    );
    assert_eq!(alive2(name, 1, null(), 0, null_mut(), 0), (1, 0));
    assert!(out.iter().all(|byte| *byte == 0xa5));
    assert_eq!(alive2(name, 1, null(), 0, at, room), (0, 16));
    out = [0xa5; REQUEST_OUTPUT];
    // SAFETY: each run is a slice, or empty.
    unsafe {
        let told = ffi::bks_port_please2_request(null(), 0, at, room);
        assert_eq!((told.refusal, told.written), (6, 0));
        let told = ffi::bks_port_please2_request(name, 1, null_mut(), 0);
        assert_eq!((told.refusal, told.written), (1, 0));
        let told = ffi::bks_names_request(null_mut(), 0);
        assert_eq!((told.refusal, told.written), (1, 0));
        assert_eq!(ffi::bks_read_alive2(null(), 0).refusal, 5);
        assert_eq!(ffi::bks_read_port2(null(), 0).refusal, 5);
        assert_eq!(ffi::bks_read_names(null(), 0).refusal, 5);
    }
    assert!(out.iter().all(|byte| *byte == 0xa5));
}

/// As the header lays them out: `include/tests/header.c` has the same numbers.
#[test]
fn structs_lie_as_in_c() {
    assert_eq!(size_of::<bks_alive2_reply>(), 16);
    assert_eq!(offset_of!(bks_alive2_reply, tag), 4);
    assert_eq!(offset_of!(bks_alive2_reply, result), 8);
    assert_eq!(offset_of!(bks_alive2_reply, creation), 12);
    assert_eq!(size_of::<bks_port2_reply>(), 32);
    assert_eq!(offset_of!(bks_port2_reply, port), 8);
    assert_eq!(offset_of!(bks_port2_reply, kind), 14);
    assert_eq!(offset_of!(bks_port2_reply, name_at), 16);
    assert_eq!(offset_of!(bks_port2_reply, extra_len), 28);
    assert_eq!(
        (
            size_of::<bks_names_line>(),
            offset_of!(bks_names_line, port)
        ),
        (12, 8)
    );
    assert_eq!(size_of::<bks_names_reply>(), 12 + 64 * 12);
    assert_eq!(offset_of!(bks_names_reply, port), 4);
    assert_eq!(offset_of!(bks_names_reply, count), 8);
    assert_eq!(offset_of!(bks_names_reply, line), 12);
}

/// Each field goes to its own place in a request.
#[test]
fn fields_of_a_request() {
    let node = Node {
        port: 0x0102,
        kind: 3,
        protocol: 4,
        highest: 0x0506,
        lowest: 6,
        name: b"name",
        extra: b"extra",
    };
    let frame = Alive2 {
        port: node.port,
        kind: node.kind,
        protocol: node.protocol,
        highest: node.highest,
        lowest: node.lowest,
        name: node.name,
        extra: node.extra,
    };
    let mut out = [0xa5; REQUEST_OUTPUT];
    assert_eq!(client::alive2_request(&node, &mut out), Ok(24));
    assert_eq!(out[..24], frame.frame());
    assert!(out[24..].iter().all(|byte| *byte == 0xa5));
}

/// Each field of a reply comes back as what it is, over pointers at any alignment.
#[test]
fn fields_of_a_reply() {
    let reply = b"?\x77\0\x01\x02\x03\x04\x05\x06\x07\x08\0\x04name\0\x05extra";
    // SAFETY: the run is a part of a slice.
    let told = unsafe { ffi::bks_read_port2(reply[1..].as_ptr(), reply.len() - 1) };
    assert_eq!((told.refusal, told.result), (0, 0));
    assert_eq!((told.port, told.kind, told.protocol), (0x0102, 3, 4));
    assert_eq!((told.highest, told.lowest), (0x0506, 0x0708));
    assert_eq!((told.name_at, told.name_len), (12, 4));
    assert_eq!((told.extra_at, told.extra_len), (18, 5));
    let node = Node {
        port: 0x0102,
        kind: 3,
        protocol: 4,
        highest: 0x0506,
        lowest: 0x0708,
        name: b"name",
        extra: b"extra",
    };
    assert_eq!(client::read_port2(&reply[1..]), Ok(Port2Reply::Found(node)));
}

/// The greatest numbers that a reply can hold are not cut.
#[test]
fn greatest_numbers() {
    let told = client::read_alive2(&[118, 0, 255, 255, 255, 255]).unwrap();
    assert_eq!(told, client::Alive2Reply::Registered { creation: u32::MAX });
    let told = client::read_alive2(&[121, 0, 255, 255]).unwrap();
    assert_eq!(
        told,
        client::Alive2Reply::RegisteredShort { creation: u16::MAX }
    );
    for result in [1, 127, 128, 255] {
        let told = client::read_alive2(&[118, result, 255, 255, 255, 255]).unwrap();
        assert_eq!(told, client::Alive2Reply::Failed { tag: 118, result });
        let reply = [119, result];
        assert_eq!(
            client::read_port2(&reply),
            Ok(Port2Reply::Failed { result })
        );
    }
    let reply = [
        &b"\x77\0\0\0\0\0\0\0\0\0\xff\xff"[..],
        &[1; 65_535],
        b"\xff\xff",
        &[2; 65_535],
    ]
    .concat();
    let Ok(Port2Reply::Found(node)) = client::read_port2(&reply) else {
        panic!("the longest reply of all");
    };
    assert_eq!(
        (node.name, node.extra),
        (&[1; 65_535][..], &[2; 65_535][..])
    );
}

/// What is lent lies in the reply, and outlives what told it.
#[test]
fn names_are_parts_of_the_reply() {
    let reply = b"\0\0\x11\x11name ride at port 4370\n".to_vec();
    let lent = |reply| -> Line<'_> { client::read_names(reply).unwrap().lines()[0] };
    let ride = lent(&reply);
    assert_eq!(ride.name.as_ptr(), reply[9..].as_ptr());
    assert_eq!((ride.name, ride.port), (&b"ride"[..], 4370));
    let found = b"w\0\x11\x12M\0\0\x06\0\x05\0\x04ride\0\0".to_vec();
    let name = match client::read_port2(&found).unwrap() {
        Port2Reply::Found(node) => node.name,
        Port2Reply::Failed { .. } => panic!("found"),
    };
    assert_eq!(name.as_ptr(), found[12..].as_ptr());
}

/// As many lines as a registry has places, and the refusal that only this call gives.
#[test]
fn sixty_four_lines() {
    let line = |name: usize| format!("name {name:n>255} at port {}\n", 65_535 - name);
    let text: String = (0..PLACES).map(line).collect();
    let reply = [&b"\0\0\xff\xff"[..], text.as_bytes()].concat();
    let told = client::read_names(&reply).unwrap();
    assert_eq!((told.port(), told.lines().len()), (65_535, PLACES));
    for (line, at) in told.lines().iter().zip(0..) {
        assert_eq!(line.name, format!("{at:n>255}").as_bytes());
        assert_eq!(line.port, 65_535 - at);
    }
    let two = b"\0\0\x11\x11name a at port 1\nname b at port 2\n";
    let refusal = client::read_names(two).unwrap_err();
    assert_eq!((refusal, refusal.number()), (Refusal::Ambiguous, 20));
}

/// What a log would show: names as text, on one line.
#[test]
fn debug_shows_names_as_text() {
    let shown = format!(
        "{:?}",
        client::read_names(b"\0\0\x11\x11name a\nb at port 1\n")
    );
    assert_eq!(
        shown,
        r#"Ok(NamesReply { port: 4369, lines: [Line { name: "a\nb", port: 1 }] })"#
    );
    let node = Node {
        name: "fähre".as_bytes(),
        extra: b"\xff",
        ..Node::default()
    };
    let shown = format!("{node:?}");
    assert!(shown.contains(r#"name: "fähre""#), "{shown}");
    assert!(shown.contains(r#"extra: b"\xff""#), "{shown}");
}

/// Answers can be handed to another thread.
#[test]
fn answers_can_be_sent() {
    fn is_send<T: Send + Sync>() {}
    is_send::<NamesReply<'_>>();
    is_send::<Port2Reply<'_>>();
}
