//! 200 clients at once that connect, ask and leave, some of them in the middle of a frame.

use std::net::TcpStream;
use std::sync::atomic::{AtomicBool, AtomicU64, Ordering};
use std::thread;
use std::time::{Duration, Instant};

use crate::support::*;

const CLIENTS: usize = 200;
const TIME: Duration = Duration::from_secs(30);
/// Nodes that stay. With the clients that register too, and their nodes whose end is not seen yet,
/// the 64 places are never all taken, so no Result above 0 is due.
const STAYING: u16 = 32;
const REGISTERING: usize = 16;

/// How much more memory, in KiB, the mapper may have at the end: at each of the two moments some long
/// frames lie there half read. Twenty bytes kept of each visit would be more.
const UNEVEN: u64 = 1024;

/// Numbers without much order, enough to mix the clients (xorshift).
struct Mixed(u64);

impl Mixed {
    fn below(&mut self, bound: u64) -> u64 {
        self.0 ^= self.0 << 13;
        self.0 ^= self.0 >> 7;
        self.0 ^= self.0 << 17;
        self.0 % bound
    }
}

fn staying(at: u64) -> String {
    format!("stays{at}")
}

/// One visit. A wrong reply panics.
fn visit(port: u16, client: usize, visits: u64, mixed: &mut Mixed) {
    let at = mixed.below(u64::from(STAYING));
    match mixed.below(6) {
        0 if client < REGISTERING => drop(register(port, &format!("c{client}-{visits}"), 9)),
        0 | 1 => {
            let reply = ask(port, &port_please2(&staying(at)));
            assert_eq!(reply[..4], [119, 0, 0, at as u8], "{}", staying(at));
        }
        2 => assert_eq!(ask(port, &port_please2("nobody")), [119, 1]),
        3 => {
            let listed = names(port);
            let all = (0..u64::from(STAYING)).all(|at| listed.contains(&staying(at)));
            assert!(all, "a name is missing: {listed:?}");
        }
        4 => {
            let request = alive2("unfinished", 9);
            let length = mixed.below(request.len() as u64) as usize;
            drop(send(port, &request[..length]));
        }
        _ => {
            let long = [0xff; 60_000];
            let length = mixed.below(long.len() as u64) as usize;
            drop(send(port, &long[..length]));
        }
    }
}

/// Lets all clients visit until the time is over; meanwhile gives the memory of the mapper after a
/// sixth of it.
fn run_crowd(mapper: &Mapper) -> (u64, u64) {
    let (visits, over) = (AtomicU64::new(0), AtomicBool::new(false));
    let memory = thread::scope(|scope| {
        for client in 0..CLIENTS {
            let (visits, over, port) = (&visits, &over, mapper.port);
            let run = move || {
                let mut mixed = Mixed(0x9e37_79b9_7f4a_7c15 ^ (client as u64 + 1));
                while !over.load(Ordering::Relaxed) {
                    let number = visits.fetch_add(1, Ordering::Relaxed);
                    visit(port, client, number, &mut mixed);
                    thread::sleep(Duration::from_millis(10 + mixed.below(60)));
                }
            };
            let thread = thread::Builder::new().stack_size(256 << 10);
            thread.spawn_scoped(scope, run).expect("a thread");
        }
        thread::sleep(TIME / 6);
        let memory = mapper.process.memory("VmRSS");
        thread::sleep(TIME - TIME / 6);
        over.store(true, Ordering::Relaxed);
        memory
    });
    (visits.into_inner(), memory)
}

#[test]
#[ignore = "takes 30 s: make check-interop"]
fn a_crowd_of_200_loses_no_name_and_costs_no_memory() {
    let mapper = Mapper::start(&[]);
    let mut nodes: Vec<TcpStream> = (0..STAYING)
        .map(|at| register(mapper.port, &staying(at.into()), at).0)
        .collect();
    let files = mapper.process.open_files();
    let start = Instant::now();
    let (visits, before) = run_crowd(&mapper);
    let time = start.elapsed().as_secs();
    let after = mapper.process.memory("VmRSS");
    println!("{visits} visits in {time} s, memory {before} KiB after 5 s, {after} KiB at the end");
    assert!(visits > 10_000, "hardly a crowd");
    assert!(
        after <= before + UNEVEN,
        "memory grew from {before} to {after} KiB"
    );
    eventually("all visitors are gone", || {
        names(mapper.port).len() == STAYING.into()
    });
    eventually("their sockets are closed", || {
        mapper.process.open_files() == files
    });
    assert!(nodes.iter_mut().all(is_open));
    for line in mapper.process.lines() {
        // Most lines about nodes are left out; what they are about is told.
        let words: Vec<&str> = line.split(' ').skip(1).collect();
        let kind = words[1].strip_prefix("kind=");
        let event = if words[0] == "left-out" {
            kind
        } else {
            Some(words[0])
        };
        let due = ["listening", "registered", "left"].contains(&event.unwrap());
        assert!(due, "{line}");
    }
}
