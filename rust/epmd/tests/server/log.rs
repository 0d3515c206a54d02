//! The log cannot hurt: it is bounded, exact, and stops nobody.

use std::net::{Ipv4Addr, Shutdown, TcpStream};
use std::thread;
use std::time::{Duration, Instant};

use crate::support::*;

const LINES: u64 = 50;
const DOCUMENT: &str = include_str!("../../../../docs/INTEROP.md");

/// How many lines of a kind were said, and how many are told to be left out.
fn counted(lines: &[String], kind: &str) -> (u64, u64) {
    let said = lines.iter().filter(|it| it.split(' ').nth(1) == Some(kind));
    let about = format!("left-out kind={kind} lines=");
    let told = lines.iter().filter_map(|it| it.split(&about).nth(1));
    (
        said.count() as u64,
        told.map(|it| it.parse::<u64>().unwrap()).sum(),
    )
}

/// A line without what is another in every run.
fn lasting(line: &str) -> Vec<&str> {
    let words = line.split(' ').skip(1);
    words
        .filter(|it| !it.starts_with("peer=") && !it.starts_with("connection="))
        .collect()
}

#[test]
fn the_document_shows_lines_as_they_are_written() {
    let mapper = Mapper::start(&["--first-creation", "3788872128"]);
    let (node, _) = register(mapper.port, "ride", 4370);
    read_exactly(&mut send(mapper.port, &alive2("ride", 4371)), 6);
    assert_eq!(ask(mapper.port, &frame(b"k")), b"");
    node.shutdown(Shutdown::Both).unwrap();
    for event in ["registered", "not-registered", "refused", "left"] {
        let line = mapper.process.line_with(&format!("Z {event} "));
        let mut shown = DOCUMENT.lines().map(lasting);
        assert!(shown.any(|it| it == lasting(&line)), "{line}");
    }
}

#[test]
fn a_kind_of_line_is_limited_and_what_is_left_out_is_counted() {
    const FRAMES: u64 = 1_538;
    let mapper = Mapper::start(&[]);
    let start = Instant::now();
    for _ in 0..FRAMES {
        assert_eq!(ask(mapper.port, &frame(b"k")), b"");
    }
    let seconds = start.elapsed().as_secs() + 1;
    // Nothing follows, and the count comes all the same.
    eventually("all are told", || {
        let (said, left_out) = counted(&mapper.process.lines(), "refused");
        said + left_out == FRAMES
    });
    let (said, left_out) = counted(&mapper.process.lines(), "refused");
    assert!(left_out > 0 && said <= LINES * (seconds + 1), "{said}");
    // Other kinds have lines of their own.
    register(mapper.port, "ride", 4370);
    mapper.process.line_with(" registered ");
}

#[test]
fn what_is_left_out_is_told_at_the_end_too() {
    const NODES: u64 = 200;
    let mut mapper = Mapper::start(&[]);
    for _ in 0..NODES {
        let (node, _) = register(mapper.port, "ride", 4370);
        node.shutdown(Shutdown::Both).unwrap();
    }
    mapper.process.signal("TERM");
    mapper.process.wait();
    eventually("all are told", || {
        let (said, left_out) = counted(&mapper.process.lines(), "registered");
        said + left_out == NODES
    });
}

/// A mapper whose log nobody reads, in a pipe for the first few lines.
fn unread() -> (Process, u16, Folder) {
    let (state, port) = (Folder::new(), free_port());
    let mut command = birken_epmd();
    command.args(["--port", &port.to_string(), "--state-dir", state.path()]);
    let process = Process::start_unread(&mut command);
    process.shrink_pipe();
    eventually("it listens", || {
        TcpStream::connect((Ipv4Addr::LOCALHOST, port)).is_ok()
    });
    (process, port, state)
}

/// A name whose lines have more than a kilobyte.
fn long_name() -> String {
    "\u{1}".repeat(255)
}

#[test]
fn a_reader_that_stops_stops_neither_the_mapper_nor_a_signal() {
    let (mut process, port, _state) = unread();
    let start = Instant::now();
    while start.elapsed() < Duration::from_millis(1500) {
        let (node, _) = register(port, &long_name(), 4370);
        let failed = read_exactly(&mut send(port, &alive2(&long_name(), 4370)), 6);
        assert_eq!(failed[1], 1);
        node.shutdown(Shutdown::Both).unwrap();
        assert_eq!(ask(port, &frame(b"k")), b"");
    }
    assert_eq!(ask(port, &port_please2("nobody")), b"w\x01");
    let start = Instant::now();
    process.signal("TERM");
    assert_eq!(process.wait().code(), Some(0));
    assert!(start.elapsed() < Duration::from_secs(5));
}

/// Some 60 lines a second of each of two kinds, of which 50 are admitted: after a second they do
/// not fit any more. In the end each is read, left out or dropped.
#[test]
fn every_line_is_read_or_counted_once_the_reader_returns() {
    const NODES: u64 = 130;
    let (mut process, port, _state) = unread();
    for _ in 0..NODES {
        let (node, _) = register(port, &long_name(), 4370);
        node.shutdown(Shutdown::Both).unwrap();
        thread::sleep(Duration::from_millis(16));
    }
    eventually("the last is gone", || names(port).is_empty());
    process.read_on();
    let count = || {
        let lines = process.lines();
        let told = lines.iter();
        let told = told.filter_map(|it| it.split(" dropped lines=").nth(1));
        let dropped: u64 = told.map(|it| it.parse::<u64>().unwrap()).sum();
        let (registered, left) = (counted(&lines, "registered"), counted(&lines, "left"));
        (dropped, registered.0 + registered.1 + left.0 + left.1)
    };
    eventually("all are told", || {
        let (dropped, told) = count();
        dropped + told == 2 * NODES
    });
    assert!(count().0 > 0, "{:?}", count());
}
