//! One connection of a host: the messages of its handshake, and what comes behind them.

use std::io::{ErrorKind, Read, Write};
use std::net::TcpStream;

/// A frame of no bytes, with the lengths that frames have behind the handshake.
const TICK: [u8; 4] = [0; 4];

pub struct Connection {
    stream: TcpStream,
    /// What has come and is not taken yet.
    unread: Vec<u8>,
    /// How much of it, and of what is to come, belongs to a frame that is passed over.
    rest: usize,
}

/// How many frames came behind the handshake.
#[derive(Clone, Copy, Debug, Default, PartialEq, Eq)]
pub struct Traffic {
    pub ticks: usize,
    pub others: usize,
}

impl Connection {
    pub fn new(stream: TcpStream) -> Connection {
        stream.set_nonblocking(true).expect("non-blocking");
        Connection {
            stream,
            unread: Vec::new(),
            rest: 0,
        }
    }

    /// Takes what has come, without waiting, and tells whether the stream has ended.
    pub fn gather(&mut self) -> bool {
        let mut part = [0; 4096];
        loop {
            match self.stream.read(&mut part) {
                Ok(0) => return true,
                Ok(count) => self.unread.extend(&part[..count]),
                Err(error) => match error.kind() {
                    ErrorKind::WouldBlock => return false,
                    ErrorKind::ConnectionReset => return true,
                    _ => panic!("{error}"),
                },
            }
        }
    }

    /// How many bytes have come that `gather` would take.
    pub fn waiting(&self) -> usize {
        self.stream.peek(&mut [0; 4096]).unwrap_or(0)
    }

    /// The next message of the handshake, with its length, once it is whole.
    pub fn message(&mut self) -> Option<Vec<u8>> {
        let length = u16::from_be_bytes(*self.unread.first_chunk()?);
        let end = 2 + usize::from(length);
        (end <= self.unread.len()).then(|| self.unread.drain(..end).collect())
    }

    /// Passes over what came behind the handshake. A frame may be longer than anybody wants to keep.
    pub fn pass_over(&mut self) -> Traffic {
        let mut passed = Traffic::default();
        loop {
            let count = self.rest.min(self.unread.len());
            self.unread.drain(..count);
            self.rest -= count;
            let Some(&length) = self.unread.first_chunk() else {
                return passed;
            };
            self.unread.drain(..TICK.len());
            self.rest = u32::from_be_bytes(length) as usize;
            match self.rest {
                0 => passed.ticks += 1,
                _ => passed.others += 1,
            }
        }
    }

    pub fn tick(&mut self) {
        self.send(&TICK);
    }

    /// That the peer has gone is seen when it is read.
    pub fn send(&mut self, bytes: &[u8]) {
        let _ = self.stream.write_all(bytes);
    }
}
