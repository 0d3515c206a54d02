//! The library's port mapper against the model's: the same calls, and the same answers, states and
//! output bytes.

#[path = "../common/mod.rs"]
mod common;

mod calls;
mod directed;
mod face;
mod generate;
mod pair;
mod results;
mod situation;

use calls::Call;
use common::differ::{attempt, report};
use common::rng::{rounds, seed, sequence_seed, Rng};
use common::tally::Tally;
use generate::Generator;
use pair::Pair;
use situation::Situation;

const REQUESTS: u64 = 1_000_000;

/// All that a request or a making can come to.
const EXPECTED: [&str; 18] = [
    "refusal 1",
    "refusal 3",
    "refusal 4",
    "refusal 5",
    "refusal 6",
    "refusal 7",
    "refusal 8",
    "refusal 17",
    "reply 119 result 0",
    "reply 119 result 1",
    "names, none",
    "names, some",
    "close frees",
    "close finds none",
    "creation wrapped",
    "new, raw",
    "new, safe",
    "sequence with 64 registered",
];

/// One sequence of random calls.
fn sequence(seed: u64, tally: &mut Tally) {
    let mut rng = Rng(seed);
    let generator = Generator::new(&mut rng);
    let length = *rng.pick(&[5, 30, 200, 600, 600, 4000]);
    let mut pair = Pair::default();
    let mut calls: Vec<Call> = Vec::with_capacity(length);
    let mut was_full = false;
    for at in 0..length {
        calls.push(match at {
            0 => generator.first(&mut rng),
            _ => generator.call(&mut rng, pair.model()),
        });
        if attempt(&mut pair, &calls[at], tally).is_err() {
            report::<Pair>(seed, calls);
        }
        was_full |= pair
            .model()
            .is_some_and(|model| (0..64).all(|place| model.entry(place).is_some()));
    }
    if was_full {
        tally.count("sequence with 64 registered");
    }
}

#[test]
fn random_sequences() {
    let first = seed();
    let wanted = REQUESTS * rounds();
    let mut tally = Tally::default();
    let mut sequences = 0;
    while tally.times("requests") < wanted {
        sequence(sequence_seed(first, sequences), &mut tally);
        sequences += 1;
    }
    println!("seed {first}, {sequences} sequences");
    tally.print();
    tally.assert_seen(EXPECTED);
    assert_results(&tally);
}

/// Each situation of a registration was met often, with both forms of the reply, and had no Result but
/// its own.
fn assert_results(tally: &Tally) {
    let mut seen = 0;
    for (situation, result) in Situation::ALL {
        for tag in [118, 121] {
            let what = format!("{tag}, {situation}: {result}");
            tally.assert_share(&what, 5, "registrations");
            seen += tally.times(&what);
        }
    }
    assert_eq!(seen, tally.times("registrations"));
}

/// Runs the calls of the file that the variable `BIRKENSCHUH_REPLAY` names, or else a short sequence
/// that shows what such a file looks like.
#[test]
fn replay() {
    common::differ::replay::<Pair>(include_str!("replay.txt"));
}
