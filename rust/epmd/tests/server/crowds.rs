//! A stranger who takes all connections shuts nobody out.

use std::io::{Read, Write};
use std::net::{Ipv4Addr, TcpStream};
use std::sync::atomic::{AtomicBool, AtomicUsize, Ordering};
use std::thread;
use std::time::Duration;

use crate::support::*;

const LOOK_UPS: usize = 100;

/// Whether a look-up gets its answer.
fn is_served(port: u16) -> bool {
    let reply = TcpStream::connect((Ipv4Addr::LOCALHOST, port)).and_then(|mut stream| {
        stream.set_read_timeout(Some(PATIENCE))?;
        stream.write_all(&port_please2("ride"))?;
        let mut reply = Vec::new();
        stream.read_to_end(&mut reply).map(|_| reply)
    });
    reply.is_ok_and(|reply| reply.starts_with(&[119, 0, 0x11, 0x12]))
}

/// Strangers of a kind: how many, and what each does with its connection again and again. A new
/// one is opened where this tells that it is closed.
struct Strangers {
    count: usize,
    keeps: fn(&mut TcpStream) -> bool,
}

const SILENT: Strangers = Strangers {
    count: 2_000,
    keeps: |_| {
        thread::sleep(Duration::from_micros(10));
        true
    },
};

const RECONNECT: Strangers = Strangers {
    count: 600,
    keeps: |stream| !is_closed(stream),
};

const REPEAT: Strangers = Strangers {
    count: 511,
    keeps: |stream| {
        let _ = stream.write(&alive2("ride", 1));
        !is_closed(stream)
    },
};

impl Strangers {
    fn come(&self, port: u16, turns: &AtomicUsize, over: &AtomicBool) {
        let mut crowd: Vec<TcpStream> = (0..self.count).map(|_| open(port)).collect();
        while !over.load(Ordering::Relaxed) {
            for stream in &mut crowd {
                if !(self.keeps)(stream) {
                    *stream = open(port);
                }
            }
            turns.fetch_add(1, Ordering::Relaxed);
        }
    }
}

/// While all of them are there, every look-up is answered, and a node stays.
fn nobody_is_shut_out(kinds: &[Strangers]) {
    raise_file_limit();
    let mapper = Mapper::start(&["--quiet"]);
    let (port, over) = (mapper.port, AtomicBool::new(false));
    let (mut node, _) = register(port, "ride", 4370);
    let turns: Vec<AtomicUsize> = kinds.iter().map(|_| AtomicUsize::new(0)).collect();
    let served = thread::scope(|scope| {
        for (kind, turns) in kinds.iter().zip(&turns) {
            let over = &over;
            scope.spawn(move || kind.come(port, turns, over));
        }
        eventually("the strangers are there", || {
            turns.iter().all(|it| it.load(Ordering::Relaxed) > 0)
        });
        let served = (0..LOOK_UPS).filter(|_| {
            thread::sleep(Duration::from_millis(5));
            is_served(port)
        });
        let served = served.count();
        over.store(true, Ordering::Relaxed);
        served
    });
    assert_eq!(served, LOOK_UPS);
    assert!(is_open(&mut node));
}

fn open(port: u16) -> TcpStream {
    let stream = connect(port);
    stream.set_nonblocking(true).unwrap();
    stream
}

fn is_closed(stream: &mut TcpStream) -> bool {
    match stream.read(&mut [0; 64]) {
        Ok(count) => count == 0,
        Err(error) => error.kind() != std::io::ErrorKind::WouldBlock,
    }
}

#[test]
fn silent_ones_shut_nobody_out() {
    nobody_is_shut_out(&[SILENT]);
}

#[test]
fn those_who_reconnect_shut_nobody_out() {
    nobody_is_shut_out(&[RECONNECT]);
}

#[test]
fn those_who_repeat_shut_nobody_out() {
    nobody_is_shut_out(&[REPEAT]);
}

#[test]
fn all_of_them_at_once_shut_nobody_out() {
    nobody_is_shut_out(&[SILENT, RECONNECT, REPEAT]);
}
