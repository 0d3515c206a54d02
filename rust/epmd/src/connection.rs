//! One connection: what it has sent, what it has not yet taken of its reply, and what it has
//! registered.

use std::io::{self, Write};
use std::net::{Shutdown, SocketAddr, TcpStream};
use std::time::Instant;

use birkenschuh::Refusal;

use crate::input::{Budget, Input};
use crate::sys::{self, ENDED, READABLE, WRITABLE};

pub struct Connection {
    pub stream: TcpStream,
    pub peer: SocketAddr,
    /// Counts connections from the start of the program, for the log.
    pub number: u64,
    /// The number by which the registry knows this connection: unlike `number` it never grows past
    /// what a registry can tell apart, and it is given anew only when this connection has been
    /// closed there.
    pub slot: u32,
    pub input: Input,
    /// The rest of a reply. While there is any, nothing is read, so a peer cannot pile up replies.
    unsent: Vec<u8>,
    /// Closed as soon as nothing is unsent.
    pub closes: bool,
    pub node: Option<Node>,
    /// How many ALIVE2 requests got a Result above 0.
    pub failures: u8,
    /// When it is closed, unless it has registered a node. Runs from the opening, and nothing
    /// prolongs it.
    pub deadline: Instant,
    /// Its registration waits for a creation; nothing is read meanwhile.
    pub held: bool,
    /// What it waits for in the poll, nothing if it is not there.
    pub waits_for: u32,
}

/// What a connection has registered.
pub struct Node {
    pub name: Vec<u8>,
    pub port: u16,
    pub creation: u32,
}

/// Why a connection was closed.
#[derive(Debug)]
pub enum Why {
    Answered,
    Ended,
    Failed(io::Error),
    Refused(Refusal),
    TimedOut,
    NoMemory,
    /// All connections were taken, and another came.
    MadeRoom,
    /// Only callers on this machine may register.
    NotLocal,
    /// No creation is reserved on disk.
    NoCreation,
}

impl Connection {
    pub fn new(
        stream: TcpStream,
        peer: SocketAddr,
        number: u64,
        slot: u32,
        deadline: Instant,
    ) -> Connection {
        Connection {
            stream,
            peer,
            number,
            slot,
            input: Input::default(),
            unsent: Vec::new(),
            closes: false,
            node: None,
            failures: 0,
            deadline,
            held: false,
            waits_for: 0,
        }
    }

    /// Sends a reply in one write, as nodes expect it; what the peer has no room for is kept.
    pub fn send(&mut self, reply: &[u8], budget: &mut Budget) -> Result<(), Why> {
        let sent = match self.closes {
            true => written(sys::send_last(&self.stream, reply))?,
            false => written(self.stream.write(reply))?,
        };
        let rest = &reply[sent..];
        if !budget.take(rest.len()) {
            return Err(Why::NoMemory);
        }
        self.unsent = rest.to_vec();
        Ok(())
    }

    /// Sends what there is room for of the rest.
    pub fn send_rest(&mut self, budget: &mut Budget) -> Result<(), Why> {
        let sent = written(self.stream.write(&self.unsent))?;
        self.unsent.drain(..sent);
        budget.give_back(sent);
        Ok(())
    }

    /// Ends the stream behind what was sent. Without this, a peer that has sent more than was read
    /// would lose the reply, since a socket closed with bytes unread drops what waits to be sent.
    pub fn finish(&self) {
        let _ = self.stream.shutdown(Shutdown::Write);
    }

    pub fn all_sent(&self) -> bool {
        self.unsent.is_empty()
    }

    /// What it has of the budget.
    pub fn borrowed(&self) -> usize {
        self.input.borrowed() + self.unsent.len()
    }

    /// What the poll has to tell of it. A peer that reads nothing may end all the same, and that
    /// end is the node's.
    pub fn interest(&self) -> u32 {
        match (self.all_sent(), &self.node) {
            (true, _) if self.held => ENDED,
            (true, _) => READABLE,
            (false, None) => WRITABLE,
            (false, Some(_)) => WRITABLE | ENDED,
        }
    }

    pub fn has_node(&self, name: &[u8]) -> bool {
        self.node.as_ref().is_some_and(|node| node.name == name)
    }

    /// Whether there is nothing left to read but the end.
    pub fn has_ended(&self) -> bool {
        match self.stream.peek(&mut [0]) {
            Ok(count) => count == 0,
            Err(error) => error.kind() != io::ErrorKind::WouldBlock,
        }
    }

    /// What it was doing, for the log of a timeout.
    pub fn state(&self) -> &'static str {
        match (self.all_sent(), self.input.is_empty()) {
            (false, _) => "reply not read",
            (true, _) if self.held => "waits for a creation",
            (true, false) => "frame not complete",
            (true, true) => "no request",
        }
    }
}

/// How much was written; a peer without room takes 0 bytes.
fn written(result: io::Result<usize>) -> Result<usize, Why> {
    match result {
        Ok(count) => Ok(count),
        Err(error) => match error.kind() {
            io::ErrorKind::WouldBlock | io::ErrorKind::Interrupted => Ok(0),
            _ => Err(Why::Failed(error)),
        },
    }
}

#[cfg(test)]
mod tests {
    use super::*;
    use std::io::Read;
    use std::net::TcpListener;

    /// A peer that reads nothing until there is no room for it, and then reads all.
    #[test]
    fn what_the_peer_has_no_room_for_is_kept_and_sent_later() {
        let listener = TcpListener::bind("127.0.0.1:0").unwrap();
        let mut peer = TcpStream::connect(listener.local_addr().unwrap()).unwrap();
        let (stream, address) = listener.accept().unwrap();
        stream.set_nonblocking(true).unwrap();
        let mut filler = 0;
        while let Ok(count) = (&stream).write(&[b'f'; 4096]) {
            filler += count;
        }
        let mut it = Connection::new(stream, address, 1, 0, Instant::now());
        let reply: Vec<u8> = (0..17_604).map(|at| at as u8).collect();
        let mut budget = Budget::new(20_000);
        it.send(&reply, &mut budget).unwrap();
        assert!(!it.all_sent() && it.borrowed() > 0);
        assert_eq!((it.state(), it.interest()), ("reply not read", WRITABLE));
        assert!(!budget.take(20_000));
        let mut taken = vec![0; filler];
        peer.read_exact(&mut taken).unwrap();
        let mut rest = vec![0; reply.len()];
        let reader = std::thread::spawn(move || {
            peer.read_exact(&mut rest).unwrap();
            (peer, rest)
        });
        while !it.all_sent() {
            it.send_rest(&mut budget).unwrap();
        }
        let (_peer, rest) = reader.join().unwrap();
        assert_eq!(rest, reply);
        assert!(budget.take(20_000), "all of it is given back");
        // A second reply finds no memory if the others hold it all.
        while (&it.stream).write(&[b'f'; 4096]).is_ok() {}
        let outcome = it.send(&reply, &mut Budget::new(0));
        assert!(matches!(outcome, Err(Why::NoMemory)));
    }
}
