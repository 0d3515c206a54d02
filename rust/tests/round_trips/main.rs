//! A node's end of the mapper and the mapper itself, through whole lists of calls: what the writers
//! write is served, and what the readers read is what the mapper holds.

#[path = "../common/mod.rs"]
mod common;

mod calls;
mod generate;
mod trip;

use calls::Call;
use common::differ::{attempt, report};
use common::rng::{rounds, seed, sequence_seed, Rng};
use common::tally::Tally;
use generate::Generator;
use trip::Trip;

const SEQUENCES: u64 = 400;

const EXPECTED: [&str; 20] = [
    "asked to register, 118, Result 0",
    "asked to register, 118, Result 1",
    "asked to register, 118, Result 2",
    "asked to register, 118, Result 3",
    "asked to register, 121, Result 0",
    "asked to register, 121, Result 1",
    "asked to register, 121, Result 2",
    "asked to register, 121, Result 3",
    "not written, 5",
    "not written, 6",
    "not written, 7",
    "found",
    "not found",
    "listed, none",
    "listed, one",
    "listed, some",
    "listed, 64",
    "listed, more than one reading",
    "close frees",
    "close finds none",
];

/// One list of random calls.
fn sequence(seed: u64, tally: &mut Tally) {
    let mut rng = Rng(seed);
    let generator = Generator::new(&mut rng);
    let length = *rng.pick(&[5, 30, 200, 600, 1200]);
    let mut trip = Trip::default();
    let mut calls: Vec<Call> = Vec::with_capacity(length);
    for at in 0..length {
        calls.push(match at {
            0 => generator.first(&mut rng),
            _ => generator.call(&mut rng),
        });
        if attempt(&mut trip, &calls[at], tally).is_err() {
            report::<Trip>(seed, calls);
        }
    }
}

#[test]
fn random_sequences() {
    let first = seed();
    let mut tally = Tally::default();
    for number in 0..SEQUENCES * rounds() {
        sequence(sequence_seed(first, number), &mut tally);
    }
    println!("seed {first}");
    tally.print();
    tally.assert_seen(EXPECTED);
}

/// Runs the calls of the file that the variable `BIRKENSCHUH_REPLAY` names, or else a short list that
/// shows what such a file looks like.
#[test]
fn replay() {
    common::differ::replay::<Trip>(include_str!("replay.txt"));
}
