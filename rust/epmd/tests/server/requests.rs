//! Requests and the connections that they come on.

use std::io::Write;
use std::net::Shutdown;
use std::sync::atomic::{AtomicBool, Ordering};
use std::sync::Arc;
use std::thread::sleep;
use std::time::{Duration, Instant};

use crate::support::*;

#[test]
fn a_node_registers_is_found_and_listed() {
    let mapper = Mapper::start(&["--first-creation", "4"]);
    let port = mapper.port;
    let (_node, creation) = register(port, "ride", 4370);
    assert_eq!(creation, 4);
    let found = b"w\x00\x11\x12M\x00\x00\x06\x00\x05\x00\x04ride\x00\x00";
    assert_eq!(ask(port, &port_please2("ride")), found);
    assert_eq!(ask(port, &port_please2("rid")), b"w\x01");
    let mut list = u32::from(port).to_be_bytes().to_vec();
    list.extend(b"name ride at port 4370\n");
    assert_eq!(ask(port, NAMES), list);
}

#[test]
fn the_connection_of_a_node_is_kept_and_its_end_is_the_end_of_the_name() {
    let mapper = Mapper::start(&[]);
    let (mut node, _) = register(mapper.port, "ride", 4370);
    assert!(is_open(&mut node));
    assert_eq!(names(mapper.port), ["ride"]);
    drop(node);
    eventually("ride is gone", || names(mapper.port).is_empty());
    let line = mapper.process.line_with("left");
    assert!(line.contains("name=ride") && line.contains("connection ended"));
}

#[test]
fn a_half_closed_and_a_reset_connection_end_a_name_too() {
    let mapper = Mapper::start(&[]);
    let (mut half, _) = register(mapper.port, "half", 1);
    half.shutdown(Shutdown::Write).unwrap();
    assert!(read_for(&mut half, PATIENCE).closed);
    assert!(names(mapper.port).is_empty());
    // A socket that is closed with its reply unread is reset.
    let reset = send(mapper.port, &alive2("reset", 1));
    mapper.process.line_with("registered name=reset");
    drop(reset);
    eventually("reset is gone", || names(mapper.port).is_empty());
}

#[test]
fn a_half_closed_client_still_gets_its_reply() {
    let mapper = Mapper::start(&[]);
    let mut client = connect(mapper.port);
    client.write_all(&port_please2("ride")).unwrap();
    client.shutdown(Shutdown::Write).unwrap();
    let reply = read_for(&mut client, PATIENCE);
    assert_eq!((&reply.bytes[..], reply.closed), (&b"w\x01"[..], true));
}

#[test]
fn a_name_that_returns_gets_a_new_creation() {
    let mapper = Mapper::start(&["--first-creation=4294967295"]);
    for creation in [u32::MAX, 1, 2] {
        let (node, given) = register(mapper.port, "ride", 4370);
        assert_eq!(given, creation);
        node.shutdown(Shutdown::Both).unwrap();
    }
}

/// Whoever connects after the end of a node finds its name free, however soon that is.
#[test]
fn a_name_is_free_as_soon_as_its_connection_has_ended() {
    let mapper = Mapper::start(&["--quiet"]);
    for _ in 0..2000 {
        let (node, _) = register(mapper.port, "ride", 4370);
        // Dropped, it would live on in a process that another test is just starting.
        node.shutdown(Shutdown::Both).unwrap();
    }
}

#[test]
fn byte_by_byte_senders_are_served_and_hold_up_nobody() {
    let mapper = Mapper::start(&[]);
    let mut slow = connect(mapper.port);
    for byte in alive2("slow", 7) {
        assert_eq!(ask(mapper.port, &port_please2("slow")), b"w\x01");
        slow.write_all(&[byte]).unwrap();
        sleep(Duration::from_millis(5));
    }
    assert_eq!(read_exactly(&mut slow, 6)[..2], [118, 0]);
    assert_eq!(names(mapper.port), ["slow"]);
}

#[test]
fn silent_clients_hold_up_nobody() {
    let mapper = Mapper::start(&[]);
    let beginnings: [&[u8]; 4] = [b"", b"\x00", b"\x00\x05", b"\xff\xffzzz"];
    let silent: Vec<_> = (0..200)
        .map(|at| send(mapper.port, beginnings[at % 4]))
        .collect();
    let start = Instant::now();
    for _ in 0..100 {
        assert_eq!(ask(mapper.port, &port_please2("ride")), b"w\x01");
    }
    assert!(start.elapsed() < Duration::from_secs(5));
    drop(silent);
}

#[test]
fn a_second_alive2_of_a_connection_changes_nothing() {
    let mapper = Mapper::start(&[]);
    let (mut node, _) = register(mapper.port, "ride", 4370);
    node.write_all(&alive2("other", 4371)).unwrap();
    assert_eq!(read_exactly(&mut node, 6), [118, 2, 0, 0, 0, 0]);
    assert!(is_open(&mut node));
    assert_eq!(names(mapper.port), ["ride"]);
}

#[test]
fn a_connection_whose_name_is_in_use_may_try_again() {
    let mapper = Mapper::start(&[]);
    let (_node, _) = register(mapper.port, "ride", 4370);
    let mut late = send(mapper.port, &alive2("ride", 4371));
    assert_eq!(read_exactly(&mut late, 6), [118, 1, 0, 0, 0, 0]);
    assert!(is_open(&mut late));
    late.write_all(&alive2("late", 4371)).unwrap();
    assert_eq!(read_exactly(&mut late, 6)[..2], [118, 0]);
    assert_eq!(names(mapper.port), ["ride", "late"]);
}

#[test]
fn the_65th_node_gets_result_3_until_a_place_is_free() {
    let mapper = Mapper::start(&[]);
    let mut nodes: Vec<_> = (0..64)
        .map(|at| register(mapper.port, &format!("n{at}"), at))
        .collect();
    let mut late = send(mapper.port, &alive2("late", 9));
    assert_eq!(read_exactly(&mut late, 6), [118, 3, 0, 0, 0, 0]);
    drop(nodes.remove(17));
    eventually("n17 is gone", || names(mapper.port).len() == 63);
    register(mapper.port, "late", 9);
}

#[test]
fn a_question_on_a_nodes_own_connection_is_answered_and_ends_both() {
    let mapper = Mapper::start(&[]);
    let (mut node, _) = register(mapper.port, "ride", 4370);
    node.write_all(&port_please2("ride")).unwrap();
    let reply = read_for(&mut node, PATIENCE);
    assert_eq!((reply.bytes.len(), reply.closed), (18, true));
    assert!(names(mapper.port).is_empty());
    mapper.process.line_with("asked on its connection");
    // It is the question that ends them, whatever came before.
    let (mut node, _) = register(mapper.port, "other", 4371);
    let requests = [&alive2("third", 4371)[..], NAMES].concat();
    node.write_all(&requests).unwrap();
    assert!(read_for(&mut node, PATIENCE).closed);
    let line = mapper.process.line_with("left name=other");
    assert!(line.contains("asked on its connection"), "{line}");
}

#[test]
fn of_two_requests_in_one_segment_the_first_is_answered() {
    let mapper = Mapper::start(&[]);
    let two = [&port_please2("ride")[..], NAMES].concat();
    assert_eq!(ask(mapper.port, &two), b"w\x01");
    // More than is read with the request.
    let many = [&port_please2("ride")[..], &NAMES.repeat(1000)].concat();
    assert_eq!(ask(mapper.port, &many), b"w\x01");
    let two = [&alive2("ride", 4370)[..], &port_please2("ride")].concat();
    let replies = ask(mapper.port, &two);
    assert_eq!(replies[..2], [118, 0]);
    assert_eq!(replies[6..8], [119, 0]);
}

/// A connection cannot keep the mapper busy: its second ALIVE2 with a Result above 0 is its last.
#[test]
fn of_many_alive2_that_fail_two_are_answered() {
    let mapper = Mapper::start(&[]);
    let (_node, _) = register(mapper.port, "ride", 4370);
    let mut repeats = connect(mapper.port);
    let mut writer = repeats.try_clone().unwrap();
    let requests = alive2("ride", 1).repeat(10_000);
    let sender = std::thread::spawn(move || drop(writer.write_all(&requests)));
    let reply = read_for(&mut repeats, PATIENCE);
    assert!(reply.closed);
    assert_eq!(reply.bytes, [118, 1, 0, 0, 0, 0].repeat(2));
    sender.join().unwrap();
    let failed = || {
        let lines = mapper.process.lines();
        let about = lines.iter().filter(|it| it.contains("not-registered"));
        about.count()
    };
    eventually("both are told", || failed() >= 2);
    assert_eq!(failed(), 2);
}

#[test]
fn a_node_that_registers_twice_more_loses_its_name() {
    let mapper = Mapper::start(&[]);
    let (mut node, _) = register(mapper.port, "ride", 4370);
    node.write_all(&alive2("other", 4371).repeat(2)).unwrap();
    let reply = read_for(&mut node, PATIENCE);
    assert!(reply.closed);
    assert_eq!(reply.bytes, [118, 2, 0, 0, 0, 0].repeat(2));
    assert!(names(mapper.port).is_empty());
    mapper.process.line_with("registered again");
}

/// However much one connection sends at once, others are served between its requests.
#[test]
fn requests_in_a_row_make_nobody_wait() {
    let mapper = Mapper::start(&["--quiet"]);
    let _nodes: Vec<_> = (0..63)
        .map(|at| register(mapper.port, &format!("n{at}"), at))
        .collect();
    let (_node, _) = register(mapper.port, "ride", 4370);
    let over = Arc::new(AtomicBool::new(false));
    let (port, ended) = (mapper.port, Arc::clone(&over));
    let crowd = std::thread::spawn(move || {
        // For the second the connections of all nodes are looked at.
        let requests = [alive2("ride", 1), alive2("late", 1)]
            .concat()
            .repeat(1_500);
        while !ended.load(Ordering::Relaxed) {
            let mut stream = connect(port);
            let _ = stream.write_all(&requests);
            assert!(read_for(&mut stream, PATIENCE).closed);
        }
    });
    let mut times: Vec<Duration> = (0..200)
        .map(|_| {
            let start = Instant::now();
            assert_eq!(ask(mapper.port, &port_please2("ride")).len(), 18);
            start.elapsed()
        })
        .collect();
    over.store(true, Ordering::Relaxed);
    crowd.join().unwrap();
    times.sort();
    // The machine may be busy with other tests for the longest of them.
    assert!(times[190] < Duration::from_millis(20), "{times:?}");
}
