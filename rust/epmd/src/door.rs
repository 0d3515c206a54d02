//! The door: who is taken in, and who has to leave for it.

use std::io;
use std::net::{SocketAddr, TcpStream};
use std::time::{Duration, Instant};

use crate::connection::Why;
use crate::log::Value;
use crate::mapper::Next;
use crate::server::{Server, LISTENERS};
use crate::sys::{self, READABLE};
use crate::table::token;

/// Accepted from a listener in a turn before the others are looked after again.
const ACCEPTS: usize = 64;
/// How long nothing is accepted once the system has no descriptor or memory left for a connection.
const REST: Duration = Duration::from_millis(100);

impl Server {
    /// Takes in who waits outside. Who comes alone has hardly sent its request yet, and is waited
    /// for. In a crowd it has, by the time that it is accepted, and is answered without a wait.
    pub fn accept(&mut self, at: usize, now: Instant) -> io::Result<()> {
        let mut outcome = Ok(());
        for _ in 0..if self.turn.crowded { ACCEPTS } else { 1 } {
            match sys::accept(&self.listeners[at]) {
                Ok((stream, peer)) => self.greet(stream, peer, now),
                Err(error) => match error.kind() {
                    io::ErrorKind::WouldBlock => break,
                    io::ErrorKind::Interrupted | io::ErrorKind::ConnectionAborted => {}
                    _ => {
                        outcome = self.rest(&error, now);
                        break;
                    }
                },
            }
        }
        while let Some(token) = self.turn.new.pop_front() {
            match self.turn.crowded {
                true => self.attend(token, READABLE, now),
                false => self.settle(token, Ok(Next::Wait)),
            }
        }
        outcome
    }

    fn greet(&mut self, stream: TcpStream, peer: SocketAddr, now: Instant) {
        if self.connections.is_full() {
            self.make_room(now);
        }
        let deadline = now + self.mapper.rules.idle;
        match self.connections.add(stream, peer, deadline) {
            Some(token) => self.turn.new.push_back(token),
            None => {
                let limit = self.connections.limit() as u64;
                let fields = [("limit", Value::Number(limit))];
                self.mapper.log.line("too-many-connections", &fields);
            }
        }
    }

    /// Closes the connection without a node whose deadline is nearest. It is read once more before:
    /// who has asked gets the answer, and makes room by that.
    fn make_room(&mut self, now: Instant) {
        while self.connections.is_full() {
            let Some(first) = self.connections.first_caller().map(token) else {
                return;
            };
            self.attend(first, READABLE, now);
            if !self.connections.is_full() {
                return;
            }
            // Who has registered a node just now stays, and is no caller any more.
            if self.connections.first_caller().map(token) == Some(first) {
                self.close(first, &Why::MadeRoom);
            }
        }
    }

    /// No descriptor or memory is left: those who wait outside are taken in later, and nobody
    /// inside is disturbed.
    fn rest(&mut self, error: &io::Error, now: Instant) -> io::Result<()> {
        let reason = error.to_string();
        let fields = [("reason", Value::Text(&reason))];
        self.mapper.log.line("accept-failed", &fields);
        self.turn.rests_until = Some(now + REST);
        self.listen_for(0)
    }

    pub fn listen_for(&self, interest: u32) -> io::Result<()> {
        for (at, listener) in self.listeners.iter().enumerate() {
            self.poll
                .change(listener, LISTENERS + at as u64, interest)?;
        }
        Ok(())
    }
}
