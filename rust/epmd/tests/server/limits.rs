//! Bounds: connections, descriptors, memory, time.

use std::io::Write;
use std::net::TcpStream;
use std::sync::Arc;
use std::thread::sleep;
use std::time::{Duration, Instant};

use crate::support::*;

#[test]
fn a_full_house_makes_room_for_a_newcomer() {
    let mapper = Mapper::start(&["--max-connections", "3"]);
    let (_node, _) = register(mapper.port, "ride", 4370);
    let mut silent = [connect(mapper.port), connect(mapper.port)];
    assert!(silent.iter_mut().all(is_open));
    assert_eq!(names(mapper.port), ["ride"]);
    // The deadline of the first is nearest.
    assert!(read_for(&mut silent[0], PATIENCE).closed);
    assert!(is_open(&mut silent[1]));
    mapper.process.line_with("made-room state=\"no request\"");
    let mut next = [connect(mapper.port), connect(mapper.port)];
    assert!(read_for(&mut silent[1], PATIENCE).closed);
    assert!(next.iter_mut().all(is_open));
}

/// Many are accepted in one turn, into a house for one: each has asked before the next comes in.
#[test]
fn who_has_asked_is_answered_before_room_is_made() {
    let mapper = Mapper::start(&["--max-connections", "1"]);
    let mut callers: Vec<TcpStream> = Vec::new();
    mapper.process.while_stopped(|| {
        callers.extend((0..20).map(|_| send(mapper.port, &port_please2("nobody"))));
    });
    for caller in &mut callers {
        assert_eq!(read_for(caller, PATIENCE).bytes, b"w\x01");
    }
}

#[test]
fn nobody_leaves_for_a_newcomer_but_callers_without_a_node() {
    let mapper = Mapper::start(&["--max-connections", "2"]);
    let mut nodes = ["a", "b"].map(|name| register(mapper.port, name, 9).0);
    assert!(read_for(&mut connect(mapper.port), PATIENCE).closed);
    mapper.process.line_with("too-many-connections limit=2");
    assert!(nodes.iter_mut().all(is_open));
    drop(nodes);
    eventually("there is room again", || {
        let mut next = connect(mapper.port);
        let sent = next.write_all(NAMES).is_ok();
        sent && !read_for(&mut next, PATIENCE).bytes.is_empty()
    });
}

/// How long a connection lasts that sends a beginning and then a byte every 100 ms.
fn lifetime(mapper: &Mapper, beginning: &[u8], drip: u8) -> Duration {
    let start = Instant::now();
    let mut stream = send(mapper.port, beginning);
    loop {
        let reply = read_for(&mut stream, Duration::from_millis(100));
        if reply.closed {
            return start.elapsed();
        }
        assert!(start.elapsed() < PATIENCE, "never closed");
        if drip > 0 {
            let _ = stream.write_all(&[drip]);
        }
    }
}

fn about_a_second(time: Duration) -> bool {
    (Duration::from_millis(900)..Duration::from_secs(4)).contains(&time)
}

#[test]
fn a_silent_connection_is_closed_in_time() {
    let mapper = Mapper::start(&["--idle-timeout", "1"]);
    let time = lifetime(&mapper, b"", 0);
    assert!(about_a_second(time), "{time:?}");
    mapper.process.line_with("timed-out state=\"no request\"");
}

#[test]
fn bytes_that_complete_no_frame_do_not_prolong_a_connection() {
    let mapper = Mapper::start(&["--idle-timeout", "1"]);
    let time = lifetime(&mapper, b"\x01\x00z", b'u');
    assert!(about_a_second(time), "{time:?}");
    mapper
        .process
        .line_with("timed-out state=\"frame not complete\"");
}

#[test]
fn a_connection_whose_alive2_failed_is_closed_in_time_and_a_nodes_is_not() {
    let mapper = Mapper::start(&["--idle-timeout", "1"]);
    let (mut node, _) = register(mapper.port, "ride", 4370);
    let time = lifetime(&mapper, &alive2("ride", 1), 0);
    assert!(about_a_second(time), "{time:?}");
    sleep(Duration::from_millis(500));
    assert!(is_open(&mut node));
    assert_eq!(names(mapper.port), ["ride"]);
}

/// A request that is answered prolongs nothing either.
#[test]
fn an_alive2_that_fails_late_does_not_prolong_a_connection() {
    let mapper = Mapper::start(&["--idle-timeout", "2"]);
    let (_node, _) = register(mapper.port, "ride", 4370);
    let start = Instant::now();
    let mut late = connect(mapper.port);
    sleep(Duration::from_millis(1500));
    late.write_all(&alive2("ride", 1)).unwrap();
    let reply = read_for(&mut late, PATIENCE);
    assert_eq!((reply.bytes.len(), reply.closed), (6, true));
    let time = start.elapsed();
    assert!(time < Duration::from_millis(3300), "{time:?}");
}

/// Long frames without their last byte, from more clients than the budget has room for.
#[test]
fn long_frames_share_a_bounded_memory() {
    let mapper = Mapper::start(&[]);
    let (_node, _) = register(mapper.port, "ride", 4370);
    let before = mapper.process.memory("VmRSS");
    let mut unfinished = vec![b'z'; 65_536];
    unfinished[..2].fill(0xff);
    let mut clients: Vec<TcpStream> = (0..120)
        .map(|_| {
            let mut stream = connect(mapper.port);
            let _ = stream.write_all(&unfinished);
            stream
        })
        .collect();
    mapper.process.line_with("memory-spent");
    let grown = mapper.process.memory("VmRSS").saturating_sub(before);
    assert!(grown < 7 << 10, "{grown} KiB");
    assert_eq!(names(mapper.port), ["ride"]);
    // Those that found room are served, and give it back; which ones did depends on how their bytes came.
    for client in &mut clients {
        let _ = client.write_all(b"z");
    }
    mapper.process.line_with("refused refusal=6");
    assert!(read_for(&mut clients[0], PATIENCE).closed);
    drop(clients);
    let mut again = send(mapper.port, &unfinished);
    assert!(is_open(&mut again));
}

#[test]
fn without_descriptors_the_others_are_served_and_the_rest_wait() {
    let mapper = Mapper::start(&["--max-connections", "40"]);
    let (_node, _) = register(mapper.port, "ride", 4370);
    // As if the whole system had none left.
    let files = mapper.process.open_files() + 6;
    limit_files(mapper.process.id(), files as u64);
    let mut silent: Vec<TcpStream> = (0..12).map(|_| connect(mapper.port)).collect();
    mapper.process.line_with("accept-failed");
    let before = mapper.process.processor_time();
    sleep(Duration::from_secs(1));
    assert!(mapper.process.processor_time() - before < 20, "a busy loop");
    silent[0].write_all(&port_please2("ride")).unwrap();
    assert_eq!(read_for(&mut silent[0], PATIENCE).bytes.len(), 18);
    let mut waiting = send(mapper.port, NAMES);
    drop(silent);
    let reply = read_for(&mut waiting, PATIENCE);
    assert!(reply.bytes.ends_with(b"name ride at port 4370\n"));
}

#[test]
fn more_connections_than_files_are_refused_at_the_start() {
    let state = Folder::new();
    let line = "ulimit -n 100 && exec \"$0\" --port 0 --state-dir \"$1\" --max-connections 200";
    let mut command = std::process::Command::new("sh");
    command.args(["-c", line, BIRKEN_EPMD, state.path()]);
    let output = outcome(&mut command);
    assert_eq!(output.status.code(), Some(1));
    let message = text(&output.stderr[..]);
    assert!(message.contains("--max-connections 200") && message.contains(" 100 "));
    assert_eq!(message.lines().count(), 1, "{message}");
}

#[test]
fn the_file_limit_is_raised_as_far_as_it_may_be() {
    let state = Arc::new(Folder::new());
    let line = "ulimit -Sn 40 && exec \"$0\" --port 0 --state-dir \"$1\" --max-connections 100";
    let mut command = std::process::Command::new("sh");
    command.args(["-c", line, BIRKEN_EPMD, state.path()]);
    let mapper = Mapper::of(&mut command, state);
    let mut silent: Vec<TcpStream> = (0..99).map(|_| connect(mapper.port)).collect();
    assert!(names(mapper.port).is_empty());
    assert!(is_open(&mut silent[0]));
}

/// A node whose machine loses power says nothing more; the system asks after it in time.
#[test]
fn a_nodes_connection_is_asked_whether_it_is_alive() {
    let mapper = Mapper::start(&[]);
    let (node, _) = register(mapper.port, "ride", 4370);
    let (timer, seconds) = timer_of(mapper.port, node.local_addr().unwrap().port());
    assert_eq!(timer, KEEPALIVE);
    assert!((30..=60).contains(&seconds), "{seconds}");
    let words = ["--keepalive-idle", "900", "--keepalive-interval", "7"];
    let mapper = Mapper::start(&words);
    let (node, _) = register(mapper.port, "ride", 4370);
    let (timer, seconds) = timer_of(mapper.port, node.local_addr().unwrap().port());
    assert_eq!(timer, KEEPALIVE);
    assert!((800..=900).contains(&seconds), "{seconds}");
}

/// The kind of timer that runs in `/proc/net/tcp` for questions after a silent peer.
const KEEPALIVE: &str = "02";

/// The timer of a connection and in how many seconds it ends, by the system's table of sockets.
fn timer_of(port: u16, peer: u16) -> (String, u64) {
    let table = std::fs::read_to_string("/proc/net/tcp").unwrap();
    let (local, remote) = (
        format!("0100007F:{port:04X}"),
        format!("0100007F:{peer:04X}"),
    );
    let fields = table.lines().map(|it| it.split_whitespace().collect());
    let row: Vec<&str> = fields
        .into_iter()
        .find(|row: &Vec<&str>| row[1] == local && row[2] == remote)
        .expect("the connection");
    let (timer, hundredths) = row[5].split_once(':').unwrap();
    let hundredths = u64::from_str_radix(hundredths, 16).unwrap();
    (timer.to_string(), hundredths / 100)
}
