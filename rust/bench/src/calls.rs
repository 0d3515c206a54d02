//! Each call of the endpoint alone, against the independent implementation. A call changes what it
//! finds, so the endpoint is put back before each, outside the time that is taken: by the processor's
//! time stamp counter, on both sides of the call, less what a call of nothing takes so.

use crate::timing::print_single;
use std::arch::x86_64::{_mm_lfence, _mm_mfence, _rdtsc};
use std::hint::black_box;
use std::time::{Duration, Instant};

const FLAGS: u64 = birkenschuh::REQUIRED_FLAGS;
const TURNS: usize = 15;
const TIMES: u32 = 2_000;

type Call<E> = Box<dyn Fn(&mut E, &mut [u8])>;

/// A call with the endpoint that it finds.
struct Case<E> {
    name: &'static str,
    before: E,
    call: Call<E>,
}

/// The value is made, whatever the compiler thinks of it.
fn used<T>(value: T) {
    black_box(value);
}

fn stamp() -> u64 {
    // SAFETY: every x86-64 processor has both.
    unsafe {
        _mm_lfence();
        let stamp = _rdtsc();
        _mm_lfence();
        stamp
    }
}

/// Waits until what was stored has left the processor's queue.
fn settle() {
    // SAFETY: every x86-64 processor has it.
    unsafe { _mm_mfence() };
}

/// How many nanoseconds a step of the counter takes.
fn step() -> f64 {
    let (start, from) = (Instant::now(), stamp());
    while start.elapsed() < Duration::from_millis(50) {}
    let steps = stamp() - from;
    start.elapsed().as_nanos() as f64 / steps as f64
}

/// The mean number of steps of a call, in one turn.
fn turn<E: Clone>(case: &Case<E>, endpoint: &mut E, out: &mut [u8]) -> f64 {
    let mut steps = 0;
    for _ in 0..TIMES {
        endpoint.clone_from(&case.before);
        settle();
        let from = stamp();
        (case.call)(black_box(endpoint), out);
        steps += stamp() - from;
    }
    steps as f64 / f64::from(TIMES)
}

/// The cases of one crate: both have the same calls under the same names. First a call of nothing.
macro_rules! cases {
    ($name:ident) => {{
        use $name::{Cookies, Endpoint, ENDPOINT_OUTPUT};
        let cookies = || Cookies {
            own: b"",
            standard: b"monster",
        };
        let (mut to_b, mut to_a) = ([0; ENDPOINT_OUTPUT], [0; ENDPOINT_OUTPUT]);
        let mut a = Endpoint::new(b"a@host", FLAGS, 1).expect("good name and flags");
        let mut b = Endpoint::new(b"b@host", FLAGS, 2).expect("good name and flags");
        let mut cases: Vec<Case<Endpoint>> = Vec::new();
        let mut case = |name, before: &Endpoint, call: Call<Endpoint>| {
            let before = before.clone();
            cases.push(Case { name, before, call });
        };
        case("nothing", &a, Box::new(|_, _| ()));
        let make = |_: &mut Endpoint, _: &mut [u8]| used(Endpoint::new(b"a@host", FLAGS, 1));
        case("make", &a, Box::new(make));
        let start = |e: &mut Endpoint, out: &mut [u8]| used(e.start(b"b@host", out));
        case("start", &a, Box::new(start));
        let written = a.start(b"b@host", &mut to_b).unwrap().written;
        let arrive = |e: &mut Endpoint, _: &mut [u8]| used(e.arrive());
        case("arrive", &b, Box::new(arrive));
        let mut crowd = b.clone();
        for i in 10..41 {
            crowd
                .start(format!("{i}@host").as_bytes(), &mut to_a)
                .unwrap();
        }
        b.arrive().unwrap();
        crowd.arrive().unwrap();
        // A message on a slot, as a case of its own and then for the steps behind it.
        let message = |slot, frame: &[u8]| {
            let frame = frame.to_vec();
            Box::new(move |e: &mut Endpoint, out: &mut [u8]| {
                used(e.message(slot, &frame, 1_234_567, cookies(), out));
            })
        };
        let name = to_b[..written].to_vec();
        case("message: name", &b, message(0, &name));
        case(
            "message: name, 31 other slots taken",
            &crowd,
            message(31, &name),
        );
        // The byte of bit 34.
        let mut lacking = name.clone();
        lacking[6] = 0;
        let refused = b.clone().message(0, &lacking, 0, cookies(), &mut to_a);
        assert!(refused.is_err());
        case("message: name, refused with 9", &b, message(0, &lacking));
        let told = b
            .message(0, &name, 1_234_567, cookies(), &mut to_a)
            .unwrap();
        let (status, challenge) = to_a[..told.written].split_at(5);
        case("message: status", &a, message(0, status));
        a.message(0, status, 0, cookies(), &mut to_b).unwrap();
        case("message: challenge", &a, message(0, challenge));
        let told = a.message(0, challenge, 7, cookies(), &mut to_b).unwrap();
        let reply = to_b[..told.written].to_vec();
        case("message: reply", &b, message(0, &reply));
        case("message: refused, freed", &b, message(0, &name));
        let told = b.message(0, &reply, 0, cookies(), &mut to_a).unwrap();
        case(
            "message: acknowledgement",
            &a,
            message(0, &to_a[..told.written]),
        );
        case("message: refused, kept", &b, message(0, &name));
        let close = |e: &mut Endpoint, _: &mut [u8]| used(e.close(0));
        case("close", &b, Box::new(close));
        let slot = |e: &mut Endpoint, _: &mut [u8]| used(e.slot(0).clone());
        case("read a slot", &b, Box::new(slot));
        cases
    }};
}

pub fn calls() {
    let (ours, peer) = (cases!(birkenschuh), cases!(model));
    let mut out = [0xa5; birkenschuh::ENDPOINT_OUTPUT];
    let (mut e, mut f) = (ours[0].before.clone(), peer[0].before.clone());
    let mut best = vec![(f64::INFINITY, f64::INFINITY); ours.len()];
    for _ in 0..TURNS {
        for (i, (ours, peer)) in ours.iter().zip(&peer).enumerate() {
            best[i].0 = best[i].0.min(turn(ours, &mut e, &mut out));
            best[i].1 = best[i].1.min(turn(peer, &mut f, &mut out));
        }
    }
    let step = step();
    for (case, times) in ours.iter().zip(&best).skip(1) {
        let (ours, peer) = ((times.0 - best[0].0) * step, (times.1 - best[0].1) * step);
        let name = format!("endpoint alone: {}", case.name);
        print_single(&name, ours, "independent implementation", peer);
    }
}
