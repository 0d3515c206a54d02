//! A client that sends any bytes and tells what came back.

use std::io::{ErrorKind, Read, Write};
use std::net::{Ipv4Addr, TcpStream};
use std::time::{Duration, Instant};

/// No reply takes as long, however busy the machine is.
pub const PATIENCE: Duration = Duration::from_secs(20);

pub const NAMES: &[u8] = b"\x00\x01n";

/// A node's usual ALIVE2: versions 5 to 6, no extra.
pub fn alive2(name: &str, port: u16) -> Vec<u8> {
    alive2_of(port, 77, 0, 6, 5, name.as_bytes(), b"")
}

pub fn alive2_of(
    port: u16,
    kind: u8,
    protocol: u8,
    highest: u16,
    lowest: u16,
    name: &[u8],
    extra: &[u8],
) -> Vec<u8> {
    let mut body = vec![120];
    body.extend(port.to_be_bytes());
    body.extend([kind, protocol]);
    body.extend(highest.to_be_bytes());
    body.extend(lowest.to_be_bytes());
    body.extend((name.len() as u16).to_be_bytes());
    body.extend(name);
    body.extend((extra.len() as u16).to_be_bytes());
    body.extend(extra);
    frame(&body)
}

pub fn port_please2(name: &str) -> Vec<u8> {
    frame(&[b"z", name.as_bytes()].concat())
}

pub fn frame(body: &[u8]) -> Vec<u8> {
    let length = u16::try_from(body.len()).expect("a frame's body");
    [&length.to_be_bytes(), body].concat()
}

/// What came back within the time given.
#[derive(Debug, Clone, PartialEq, Eq)]
pub struct Reply {
    pub bytes: Vec<u8>,
    pub closed: bool,
}

pub fn connect(port: u16) -> TcpStream {
    let stream = TcpStream::connect((Ipv4Addr::LOCALHOST, port)).expect("connect");
    stream.set_read_timeout(Some(PATIENCE)).expect("timeout");
    stream
}

pub fn send(port: u16, bytes: &[u8]) -> TcpStream {
    let mut stream = connect(port);
    stream.write_all(bytes).expect("send");
    stream
}

/// Sends a request and gives all that comes until the other side closes.
pub fn ask(port: u16, request: &[u8]) -> Vec<u8> {
    let reply = read_for(&mut send(port, request), PATIENCE);
    assert!(reply.closed, "still open after {reply:?}");
    reply.bytes
}

/// Sends an ALIVE2 and keeps the connection, which holds the registration, with the creation.
pub fn register(port: u16, name: &str, node_port: u16) -> (TcpStream, u32) {
    let mut stream = send(port, &alive2(name, node_port));
    let reply = read_exactly(&mut stream, 6);
    assert_eq!(reply[..2], [118, 0], "{name} was not registered");
    let creation = [reply[2], reply[3], reply[4], reply[5]];
    (stream, u32::from_be_bytes(creation))
}

pub fn read_exactly(stream: &mut TcpStream, count: usize) -> Vec<u8> {
    let mut bytes = vec![0; count];
    stream.read_exact(&mut bytes).expect("a reply");
    bytes
}

/// All that comes until the other side closes or the time is over.
pub fn read_for(stream: &mut TcpStream, time: Duration) -> Reply {
    let end = Instant::now() + time;
    let mut bytes = Vec::new();
    let mut buffer = [0; 4096];
    loop {
        let left = end.saturating_duration_since(Instant::now());
        if left.is_zero() {
            return Reply {
                bytes,
                closed: false,
            };
        }
        stream.set_read_timeout(Some(left)).expect("timeout");
        match stream.read(&mut buffer) {
            Ok(0) => {
                return Reply {
                    bytes,
                    closed: true,
                }
            }
            Ok(count) => bytes.extend(&buffer[..count]),
            // A side that closes with bytes unread resets the connection.
            Err(error) if error.kind() == ErrorKind::ConnectionReset => {
                return Reply {
                    bytes,
                    closed: true,
                }
            }
            Err(error) if error.kind() == ErrorKind::WouldBlock => {}
            Err(error) => panic!("{error}"),
        }
    }
}

/// Whether the other side has not closed it and sends nothing.
pub fn is_open(stream: &mut TcpStream) -> bool {
    read_for(stream, Duration::from_millis(200))
        == Reply {
            bytes: Vec::new(),
            closed: false,
        }
}

/// The names of a NAMES reply, in its order. For names without spaces.
pub fn names(port: u16) -> Vec<String> {
    let reply = ask(port, NAMES);
    let text = String::from_utf8(reply[4..].to_vec()).expect("UTF-8");
    text.lines()
        .map(|line| line.split(' ').nth(1).expect("a name").to_string())
        .collect()
}

/// Waits for something that is due soon.
pub fn eventually(what: &str, holds: impl FnMut() -> bool) {
    eventually_by(Duration::from_millis(10), what, holds);
}

/// Looks for it with pauses of one's own.
pub fn eventually_by(pause: Duration, what: &str, mut holds: impl FnMut() -> bool) {
    let end = Instant::now() + PATIENCE;
    while !holds() {
        assert!(Instant::now() < end, "not within {PATIENCE:?}: {what}");
        std::thread::sleep(pause);
    }
}
