//! The library's client of the port mapper against the model's: the same calls, and the same answers
//! and output bytes.

#[path = "../common/mod.rs"]
mod common;

mod calls;
mod damaged;
mod directed;
mod face;
mod generate;
mod names;
mod pair;
mod texts;

use calls::Call;
use common::differ::{attempt, report};
use common::rng::{rounds, seed, Rng};
use common::tally::Tally;
use pair::Pair;

const CALLS: u64 = 300_000;

/// All that a call but the reading of NAMES can come to.
const EXPECTED: [&str; 19] = [
    "alive2 written",
    "alive2 not written: 1",
    "alive2 not written: 5",
    "alive2 not written: 6",
    "alive2 not written: 7",
    "port_please2 written",
    "port_please2 not written: 1",
    "port_please2 not written: 6",
    "names written",
    "names not written: 1",
    "alive2 read: 118",
    "alive2 read: 118, an error",
    "alive2 read: 121",
    "alive2 read: 121, an error",
    "alive2 not read: 4",
    "alive2 not read: 5",
    "port2 read",
    "port2 read: an error",
    "port2 not read: 5",
];

/// Does each call on both sides. One that shows a difference is reported, to be run again.
fn run(seed: u64, calls: impl IntoIterator<Item = Call>) -> Tally {
    let (mut pair, mut tally) = (Pair::default(), Tally::default());
    for call in calls {
        if attempt(&mut pair, &call, &mut tally).is_err() {
            report::<Pair>(seed, vec![call]);
        }
    }
    tally
}

#[test]
fn random_calls() {
    let first = seed();
    let mut rng = Rng(first);
    let calls = (0..CALLS * rounds()).map(|_| generate::call(&mut rng));
    let tally = run(first, calls);
    println!("seed {first}");
    tally.print();
    tally.assert_seen(EXPECTED);
}

/// Runs the calls of the file that the variable `BIRKENSCHUH_REPLAY` names, or else a few that show
/// what such a file looks like.
#[test]
fn replay() {
    common::differ::replay::<Pair>(include_str!("replay.txt"));
}
