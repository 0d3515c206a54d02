//! Look-ups and registrations over loopback: this mapper and the real epmd in turn, in one run.
//! `make bench-epmd` runs it; words behind it choose rows by their beginning ("look-up, 1,").
//!
//! A client of a look-up connects, asks (PORT_PLEASE2), reads until the mapper closes and begins
//! again, as nodes do. A client of a registration connects, registers a name (ALIVE2), reads the
//! reply and closes; 50 other names are held meanwhile. Prints a table: how often a second (the
//! median of the rounds), the 99th percentile of the time for one, and the mapper's processor time
//! for one; and how the rates of adjacent rounds compare, which tells the mappers apart on a machine
//! that is not always equally fast.

#[path = "../tests/support/mod.rs"]
mod support;

use std::net::{Shutdown, TcpStream};
use std::thread;
use std::time::{Duration, Instant};

use support::*;

const ROUNDS: usize = 31;
/// Short, so that both mappers meet the same moods of the machine.
const ROUND: Duration = Duration::from_millis(250);
/// With the clients' names these are fewer than the 64 places.
const HELD: u16 = 50;

#[derive(Clone, Copy, PartialEq)]
enum Visit {
    LookUp,
    Registration,
}

impl Visit {
    /// Makes the visit; whether it counts.
    fn make(self, port: u16, client: usize, count: usize) -> bool {
        match self {
            Visit::LookUp => ask(port, &port_please2("held0")).starts_with(&[119, 0]),
            Visit::Registration => {
                // In turn, since the real epmd may not have seen the end of the last one yet.
                let name = format!("c{client}-{}", count % 4);
                let mut stream = send(port, &alive2(&name, 9));
                let reply = read_exactly(&mut stream, 6);
                stream.shutdown(Shutdown::Both).expect("open");
                reply[1] == 0
            }
        }
    }

    fn name(self) -> &'static str {
        match self {
            Visit::LookUp => "look-up",
            Visit::Registration => "registration",
        }
    }
}

/// What the rounds of one mapper gave.
#[derive(Default)]
struct Measured {
    /// Visits a second, of each round.
    rates: Vec<f64>,
    times: Vec<Duration>,
    /// The mapper's processor time, in hundredths of a second.
    processor: u64,
}

/// So many clients at once, for one round.
fn round(visit: Visit, process: &Process, port: u16, clients: usize, into: &mut Measured) {
    let before = process.processor_time();
    let start = Instant::now();
    let times: Vec<Duration> = thread::scope(|scope| {
        let run = |client| {
            let mut times = Vec::new();
            for count in 0.. {
                let begin = Instant::now();
                if begin - start >= ROUND {
                    break;
                }
                if visit.make(port, client, count) {
                    times.push(begin.elapsed());
                }
            }
            times
        };
        let threads: Vec<_> = (0..clients)
            .map(|client| scope.spawn(move || run(client)))
            .collect();
        let times = threads.into_iter().map(|it| it.join().expect("a client"));
        times.flatten().collect()
    });
    let rate = times.len() as f64 / start.elapsed().as_secs_f64();
    into.rates.push(rate);
    into.times.extend(times);
    into.processor += process.processor_time() - before;
}

fn row(what: &str, who: &str, mut it: Measured) {
    it.times.sort();
    let rate = median(it.rates);
    let slow = it.times[it.times.len() * 99 / 100].as_secs_f64() * 1e6;
    let processor = it.processor as f64 * 1e4 / it.times.len() as f64;
    println!("| {what} | {who} | {rate:.0} | {slow:.0} | {processor:.1} |");
}

fn median(mut numbers: Vec<f64>) -> f64 {
    numbers.sort_by(f64::total_cmp);
    numbers[numbers.len() / 2]
}

/// Both mappers, and the connections that hold names.
struct Contest {
    ours: Mapper,
    real: RealEpmd,
    nodes: Vec<TcpStream>,
}

impl Contest {
    /// So many names are held by both from now on.
    fn hold(&mut self, count: u16) {
        let held = (self.nodes.len() / 2) as u16;
        for at in held..count {
            for port in [self.ours.port, self.real.port] {
                self.nodes
                    .push(register(port, &format!("held{at}"), 4370).0);
            }
        }
    }

    /// Prints a row for each, and gives the ratio.
    fn run(&self, what: &str, visit: Visit, clients: usize) -> f64 {
        let (mut here, mut there) = (Measured::default(), Measured::default());
        for _ in 0..ROUNDS {
            let (ours, real) = (&self.ours, &self.real);
            round(visit, &ours.process, ours.port, clients, &mut here);
            round(visit, &real.process, real.port, clients, &mut there);
        }
        let pairs = here.rates.iter().zip(&there.rates);
        let ratio = median(pairs.map(|(here, there)| here / there).collect());
        row(what, "birken-epmd", here);
        row(what, "epmd (OTP)", there);
        ratio
    }
}

fn main() {
    let words: Vec<String> = std::env::args().skip(1).collect();
    let chosen: Vec<&String> = words.iter().filter(|it| !it.starts_with('-')).collect();
    let mut contest = Contest {
        ours: Mapper::start(&["--quiet"]),
        real: RealEpmd::start(),
        nodes: Vec::new(),
    };
    println!(
        "| visits, names held, clients | mapper | a second | 99th percentile, µs | processor, µs |"
    );
    println!("|---|---|---|---|---|");
    let mut ratios = Vec::new();
    for (visit, held, clients) in [
        (Visit::LookUp, 1, 1),
        (Visit::LookUp, 1, 16),
        (Visit::LookUp, 1, 64),
        (Visit::LookUp, HELD, 16),
        (Visit::Registration, HELD, 1),
        (Visit::Registration, HELD, 8),
    ] {
        let what = format!("{}, {held}, {clients}", visit.name());
        if chosen.is_empty() || chosen.iter().any(|it| what.starts_with(it.as_str())) {
            contest.hold(held);
            let ratio = contest.run(&what, visit, clients);
            ratios.push(format!("{what}: {ratio:.2}"));
        }
    }
    println!("times the real one's, the median of adjacent rounds:");
    println!("{}", ratios.join("; "));
}
