//! Handshakes by hand: what no endpoint says, and peers that do not go on.

use std::io::{ErrorKind, Read};
use std::net::{Ipv4Addr, TcpListener, TcpStream};

use crate::support::*;

/// A listener whose `accept` does not wait, and its port.
pub fn listen() -> (TcpListener, u16) {
    let listener = TcpListener::bind((Ipv4Addr::LOCALHOST, 0)).expect("bind");
    listener.set_nonblocking(true).expect("non-blocking");
    let port = listener.local_addr().expect("address").port();
    (listener, port)
}

/// The connection of a node that calls.
pub fn accept(listener: &TcpListener) -> TcpStream {
    let mut stream = None;
    eventually("a node calls", || {
        stream = listener.accept().ok();
        stream.is_some()
    });
    let (stream, _) = stream.expect("a connection");
    stream.set_read_timeout(Some(PATIENCE)).expect("timeout");
    stream
}

/// A whole frame, with its length; none where the stream ends before it.
pub fn read_frame(stream: &mut TcpStream) -> Option<Vec<u8>> {
    let mut frame = vec![0; 2];
    match stream.read_exact(&mut frame) {
        Ok(()) => {}
        Err(error)
            if matches!(
                error.kind(),
                ErrorKind::UnexpectedEof | ErrorKind::ConnectionReset
            ) =>
        {
            return None
        }
        Err(error) => panic!("{error}"),
    }
    let length = u16::from_be_bytes([frame[0], frame[1]]);
    frame.extend(read_exactly(stream, length.into()));
    Some(frame)
}

/// A name message of any fields.
pub fn name_message(flags: u64, creation: u32, name: &str) -> Vec<u8> {
    message(&[&flags.to_be_bytes(), &creation.to_be_bytes()], name)
}

/// A challenge message of any fields.
pub fn challenge_message(flags: u64, challenge: u32, creation: u32, name: &str) -> Vec<u8> {
    let numbers = [challenge.to_be_bytes(), creation.to_be_bytes()].concat();
    message(&[&flags.to_be_bytes(), &numbers], name)
}

fn message(numbers: &[&[u8]], name: &str) -> Vec<u8> {
    let length = u16::try_from(name.len()).expect("a name").to_be_bytes();
    frame(&[b"N", &numbers.concat()[..], &length, name.as_bytes()].concat())
}
