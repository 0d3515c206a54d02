//! What needs an address that is not loopback, a network that fails or a disk that is full: in
//! namespaces of the test's own. Each test starts itself again in them; where they cannot be made
//! it says so and is skipped.

use std::fs;
use std::io::{Read, Write};
use std::net::{SocketAddr, TcpStream};
use std::path::Path;
use std::process::Command;
use std::sync::Arc;
use std::thread::sleep;
use std::time::Duration;

use crate::support::*;

/// Set in the process that runs in the namespaces.
const INSIDE: &str = "BIRKEN_EPMD_TEST_INSIDE";
const HERE: &str = "192.0.2.1";
const THERE: &str = "192.0.2.2";

/// Runs `body` in a process of its own with a network and mounts of its own. `test` is the name of
/// the test that calls this.
fn in_namespaces(test: &str, body: impl FnOnce()) {
    if std::env::var_os(INSIDE).is_some() {
        return body();
    }
    let mut command = Command::new(std::env::current_exe().unwrap());
    command.args(["--exact", &format!("namespaces::{test}"), "--nocapture"]);
    command.env(INSIDE, "1");
    let output = match enter_namespaces(&mut command).output() {
        Ok(output) => output,
        Err(error) => return say(&format!("skipped {test}: no namespaces ({error})")),
    };
    let (out, err) = (text(&output.stdout[..]), text(&output.stderr[..]));
    assert!(output.status.success(), "{out}{err}");
    assert!(out.contains("1 passed"), "{out}{err}");
}

/// Sends an ALIVE2 from one address to another. What came back.
fn alive2_from(from: &str, to: &str, port: u16, name: &str) -> (TcpStream, Reply) {
    let to = SocketAddr::new(to.parse().unwrap(), port);
    let mut stream = connect_from(from.parse().unwrap(), to);
    stream.write_all(&alive2(name, 4370)).unwrap();
    let reply = read_for(&mut stream, Duration::from_millis(300));
    (stream, reply)
}

fn is_registered(reply: &Reply) -> bool {
    reply.bytes.starts_with(&[118, 0]) && !reply.closed
}

fn is_refused(reply: &Reply) -> bool {
    reply.bytes.is_empty() && reply.closed
}

#[test]
fn only_callers_on_this_machine_register() {
    in_namespaces("only_callers_on_this_machine_register", || {
        set_up_loopback(&[HERE, THERE]);
        let mapper = Mapper::start(&["--address", HERE]);
        let (_ours, reply) = alive2_from(HERE, HERE, mapper.port, "ours");
        assert!(is_registered(&reply), "{reply:?}");
        let (_local, reply) = alive2_from("127.0.0.1", "127.0.0.1", mapper.port, "local");
        assert!(is_registered(&reply), "{reply:?}");
        let (_stranger, reply) = alive2_from(THERE, HERE, mapper.port, "stranger");
        assert!(is_refused(&reply), "{reply:?}");
        let line = mapper.process.line_with("registration-refused");
        assert!(line.contains(&format!("peer={THERE}:")), "{line}");
        // A stranger may ask.
        let to = SocketAddr::new(HERE.parse().unwrap(), mapper.port);
        let mut asks = connect_from(THERE.parse().unwrap(), to);
        asks.write_all(&port_please2("ours")).unwrap();
        assert_eq!(read_for(&mut asks, PATIENCE).bytes[..2], [119, 0]);
        assert_eq!(names(mapper.port), ["ours", "local"]);
    });
}

#[test]
fn at_any_address_only_callers_on_this_machine_register() {
    in_namespaces(
        "at_any_address_only_callers_on_this_machine_register",
        || {
            set_up_loopback(&[HERE, THERE]);
            for any in ["0.0.0.0", "::"] {
                let mapper = Mapper::start(&["--address", any]);
                let (_ours, reply) = alive2_from(HERE, HERE, mapper.port, "ours");
                assert!(is_registered(&reply), "{any} {reply:?}");
                let (_stranger, reply) = alive2_from(THERE, HERE, mapper.port, "stranger");
                assert!(is_refused(&reply), "{any} {reply:?}");
            }
        },
    );
}

#[test]
fn strangers_register_where_they_are_allowed_to() {
    in_namespaces("strangers_register_where_they_are_allowed_to", || {
        set_up_loopback(&[HERE, THERE]);
        let mapper = Mapper::start(&["--address", HERE, "--allow-remote-registration"]);
        let (_stranger, reply) = alive2_from(THERE, HERE, mapper.port, "stranger");
        assert!(is_registered(&reply), "{reply:?}");
    });
}

/// The network fails, as for a machine that lost power: no end of the connection ever comes.
#[test]
fn the_name_of_a_machine_that_vanished_is_free_in_time() {
    in_namespaces(
        "the_name_of_a_machine_that_vanished_is_free_in_time",
        || {
            set_up_loopback(&[]);
            let times = [
                "--keepalive-idle=1",
                "--keepalive-interval=1",
                "--keepalive-count=2",
            ];
            let mapper = Mapper::start(&times);
            let (_node, _) = register(mapper.port, "ride", 4370);
            assert_eq!(names(mapper.port), ["ride"]);
            take_down_loopback();
            let line = mapper.process.line_with(" left name=ride");
            assert!(line.contains("reason="), "{line}");
            set_up_loopback(&[]);
            assert!(names(mapper.port).is_empty());
        },
    );
}

/// Registers and leaves.
fn visit(port: u16) -> Reply {
    let mut stream = send(port, &alive2("ride", 4370));
    let mut reply = [0; 6];
    match stream.read_exact(&mut reply) {
        Ok(()) => Reply {
            bytes: reply.to_vec(),
            closed: false,
        },
        Err(_) => Reply {
            bytes: Vec::new(),
            closed: true,
        },
    }
}

fn creation(reply: &Reply) -> Option<u32> {
    let bytes = reply.bytes.get(2..)?.try_into().ok()?;
    is_registered(reply).then(|| u32::from_be_bytes(bytes))
}

/// Takes all room of the disk that a file is on, until the file is removed.
fn fill(path: &Path) {
    let mut file = fs::File::create(path).unwrap();
    while file.write_all(&[0; 512]).is_ok() {}
}

/// No number is given that is not reserved on disk; questions are answered all the same. Once there
/// is room, registrations go on with the next number.
#[test]
fn on_a_full_disk_registrations_end_with_the_block() {
    in_namespaces("on_a_full_disk_registrations_end_with_the_block", || {
        set_up_loopback(&[]);
        let state = Arc::new(Folder::new());
        mount_small_disk(state.path());
        let mapper = Mapper::with_state(Arc::clone(&state), 0, &["--first-creation=7"]);
        fill(&state.file("filler"));
        let mut given = 0;
        while is_registered(&visit(mapper.port)) {
            given += 1;
            assert!(given < 200_000, "more than any block has");
        }
        assert!(given > 100, "{given}");
        mapper.process.line_with("state-failed");
        let line = "registration-refused reason=\"no creation";
        mapper.process.line_with(line);
        assert_eq!(ask(mapper.port, &port_please2("nobody")), b"w\x01");
        fs::remove_file(state.file("filler")).unwrap();
        let mut next = None;
        eventually("there is room", || {
            sleep(Duration::from_millis(100));
            next = creation(&visit(mapper.port));
            next.is_some()
        });
        assert_eq!(next, Some(7 + given));
    });
}

#[test]
fn a_full_disk_ends_the_start() {
    in_namespaces("a_full_disk_ends_the_start", || {
        let state = Folder::new();
        mount_small_disk(state.path());
        fill(&state.file("filler"));
        let output = run(&["--port", "0", "--state-dir", state.path()]);
        assert_eq!(output.status.code(), Some(1));
        let message = text(&output.stderr[..]);
        assert!(message.contains("cannot write"), "{message}");
    });
}
