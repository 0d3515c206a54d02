//! Asking a mapper, this one or another: one request, and all that comes back.

use std::fmt::Display;
use std::io::{self, ErrorKind, Read, Write};
use std::net::{SocketAddr, TcpStream};
use std::time::{Duration, Instant};

use crate::options::Options;

const PATIENCE: Duration = Duration::from_secs(5);
/// More than the real epmd answers with a thousand names.
const LONGEST: usize = 1 << 20;

/// What is printed, and what is to be said about it beside.
#[derive(Debug)]
pub struct Answer {
    pub text: String,
    pub note: Option<&'static str>,
}

#[derive(Debug)]
pub enum Failure {
    /// An option's value is one that no mapper can be asked for.
    BadOption(String),
    /// There is no answer, or the answer is no.
    NoAnswer(String),
}

/// All that the mapper replies to a request.
pub fn reply_to(request: &[u8], options: &Options) -> Result<Vec<u8>, Failure> {
    let reply = exchange(request, mapper(options)).map_err(|error| cannot_ask(options, error))?;
    match reply.is_empty() {
        true => Err(cannot_ask(
            options,
            "it closed the connection without a reply",
        )),
        false => Ok(reply),
    }
}

pub fn cannot_ask(options: &Options, why: impl Display) -> Failure {
    Failure::NoAnswer(format!("cannot ask {}: {why}", asked(options)))
}

/// Whom the options name, for messages.
pub fn asked(options: &Options) -> String {
    format!("at {} port {}", options.address, options.port)
}

fn mapper(options: &Options) -> SocketAddr {
    SocketAddr::new(options.address, options.port)
}

/// The patience is for the whole reply: a mapper that sends a byte now and then must not hold the
/// asker.
fn exchange(request: &[u8], mapper: SocketAddr) -> io::Result<Vec<u8>> {
    let end = Instant::now() + PATIENCE;
    let mut stream = TcpStream::connect_timeout(&mapper, PATIENCE).map_err(plainly)?;
    stream.write_all(request)?;
    let mut reply = Vec::new();
    let mut part = [0; 4096];
    while reply.len() < LONGEST {
        let left = end.saturating_duration_since(Instant::now());
        if left.is_zero() {
            return Err(timed_out());
        }
        stream.set_read_timeout(Some(left))?;
        match stream.read(&mut part).map_err(plainly)? {
            0 => return Ok(reply),
            count => reply.extend_from_slice(&part[..count]),
        }
    }
    Err(io::Error::new(
        ErrorKind::InvalidData,
        "the reply has no end",
    ))
}

/// A read that waited too long ends with "resource temporarily unavailable".
fn plainly(error: io::Error) -> io::Error {
    match error.kind() {
        ErrorKind::WouldBlock | ErrorKind::TimedOut => timed_out(),
        _ => error,
    }
}

fn timed_out() -> io::Error {
    let message = format!("timed out after {} s", PATIENCE.as_secs());
    io::Error::new(ErrorKind::TimedOut, message)
}
