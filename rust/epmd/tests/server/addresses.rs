//! Where it listens: addresses, the environment, sockets that are handed over.

use std::io::Write;
use std::net::{IpAddr, SocketAddr, TcpListener, TcpStream};
use std::os::fd::AsRawFd;
use std::os::unix::process::CommandExt;
use std::process::Command;

use crate::support::*;

/// Whether this system has ::1.
fn has_ipv6() -> bool {
    let has = TcpListener::bind("[::1]:0").is_ok();
    if !has {
        say("skipped: this system has no ::1");
    }
    has
}

fn is_served(ip: &str, port: u16) -> bool {
    let address = SocketAddr::new(ip.parse::<IpAddr>().unwrap(), port);
    let Ok(mut stream) = TcpStream::connect(address) else {
        return false;
    };
    stream.write_all(&port_please2("nobody")).unwrap();
    read_for(&mut stream, PATIENCE).bytes == b"w\x01"
}

#[test]
fn by_default_both_loopback_addresses_are_served() {
    let mapper = Mapper::start(&[]);
    assert!(is_served("127.0.0.1", mapper.port));
    assert!(!is_served("127.0.0.2", mapper.port));
    if has_ipv6() {
        let line = format!("listening address=[::1]:{}", mapper.port);
        mapper.process.line_with(&line);
        assert!(is_served("::1", mapper.port));
        let port = mapper.port.to_string();
        let output = run(&["--names", "--address=::1", "--port", &port]);
        assert_eq!(text(&output.stdout[..]), "NAME   PORT\n");
    }
}

#[test]
fn addresses_are_served_besides_loopback_however_they_are_given() {
    let mapper = Mapper::start(&["--address", "127.0.0.2,127.0.0.3", "--address=127.0.0.4"]);
    for ip in ["127.0.0.1", "127.0.0.2", "127.0.0.3", "127.0.0.4"] {
        assert!(is_served(ip, mapper.port), "{ip}");
    }
    assert!(!is_served("127.0.0.5", mapper.port));
    if has_ipv6() {
        assert!(is_served("::1", mapper.port));
    }
}

#[test]
fn any_address_is_served_with_all_others_asked_for() {
    let mapper = Mapper::start(&["--address", "127.0.0.2,0.0.0.0"]);
    assert!(is_served("127.0.0.1", mapper.port) && is_served("127.0.0.9", mapper.port));
    register(mapper.port, "ride", 4370);
    if has_ipv6() {
        assert!(is_served("::1", mapper.port));
        let mapper = Mapper::start(&["--address", "::"]);
        assert!(is_served("::1", mapper.port) && is_served("127.0.0.1", mapper.port));
        // By a v4-mapped address, which is loopback too.
        register(mapper.port, "ride", 4370);
        mapper.process.line_with("peer=[::ffff:127.0.0.1]:");
    }
}

#[test]
fn what_the_real_epmd_is_told_by_the_environment_counts_here_too() {
    let (state, port) = (Folder::new(), free_port());
    let mut command = birken_epmd();
    command.args(["--state-dir", state.path()]);
    command.env("ERL_EPMD_PORT", port.to_string());
    command.env("ERL_EPMD_ADDRESS", "127.0.0.7,127.0.0.8");
    let process = Process::start(&mut command);
    process.line_with(&format!("listening address=127.0.0.8:{port}"));
    for ip in ["127.0.0.1", "127.0.0.7", "127.0.0.8"] {
        assert!(is_served(ip, port), "{ip}");
    }
    let mut command = birken_epmd();
    command
        .arg("--names")
        .env("ERL_EPMD_PORT", port.to_string());
    let output = outcome(&mut command);
    assert_eq!(text(&output.stdout[..]), "NAME   PORT\n");
    let mut command = birken_epmd();
    let output = outcome(command.env("ERL_EPMD_PORT", "many"));
    assert_eq!(output.status.code(), Some(2));
    assert!(text(&output.stderr[..]).contains("ERL_EPMD_PORT"));
}

#[test]
fn an_address_that_is_not_here_ends_the_start() {
    let output = run(&["--port", "0", "--address", "192.0.2.1"]);
    assert_eq!(output.status.code(), Some(1));
    let message = text(&output.stderr[..]);
    assert!(message.contains("192.0.2.1") && message.lines().count() == 1);
}

/// Starts it with a socket as descriptor 3, as systemd does.
fn handed_over(socket: &impl AsRawFd, state: &Folder, words: &[&str]) -> Command {
    let mut command = Command::new("sh");
    let line = "LISTEN_PID=$$ LISTEN_FDS=1 exec \"$0\" \"$@\"";
    command.args(["-c", line, BIRKEN_EPMD, "--state-dir", state.path()]);
    command.args(words);
    let fd = socket.as_raw_fd();
    // SAFETY: between fork and exec nothing but a system call is made.
    unsafe { command.pre_exec(move || become_descriptor(fd, 3)) };
    command
}

#[test]
fn sockets_that_are_handed_over_are_served() {
    let socket = TcpListener::bind("127.0.0.6:0").unwrap();
    let port = socket.local_addr().unwrap().port();
    // Who calls before the start waits.
    let mut early = TcpStream::connect(("127.0.0.6", port)).unwrap();
    early.write_all(NAMES).unwrap();
    let state = Folder::new();
    let mut process = Process::start(&mut handed_over(&socket, &state, &[]));
    let reply = read_for(&mut early, PATIENCE);
    assert_eq!(reply.bytes, u32::from(port).to_be_bytes());
    assert!(is_served("127.0.0.6", port) && !is_served("127.0.0.1", port));
    process.line_with(&format!("listening address=127.0.0.6:{port}"));
    process.signal("TERM");
    assert!(process.wait().success());
    // The socket stays its owner's: who calls now waits for the next start.
    let mut late = TcpStream::connect(("127.0.0.6", port)).unwrap();
    late.write_all(NAMES).unwrap();
    let _process = Process::start(&mut handed_over(&socket, &state, &[]));
    assert!(read_for(&mut late, PATIENCE).closed);
}

#[test]
fn sockets_that_are_no_use_end_the_start() {
    let state = Folder::new();
    let socket = TcpListener::bind("127.0.0.1:0").unwrap();
    let output = outcome(&mut handed_over(&socket, &state, &["--port", "9"]));
    assert_eq!(output.status.code(), Some(2));
    let file = std::fs::File::open("/dev/null").unwrap();
    let output = outcome(&mut handed_over(&file, &state, &[]));
    assert_eq!(output.status.code(), Some(1));
    assert!(text(&output.stderr[..]).contains("LISTEN_FDS"));
}
