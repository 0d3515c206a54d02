//! The library's endpoint against the model's: the same calls, and the same answers, states and
//! output bytes.

#[path = "../common/mod.rs"]
mod common;

mod borders;
mod calls;
mod cookies;
mod face;
mod fields;
mod flags;
mod generate;
mod pair;
mod reach;
mod rules;
mod told;

use std::collections::HashSet;

use calls::Call;
use common::differ::{attempt, report};
use common::rng::{rounds, seed, sequence_seed, Rng};
use common::tally::Tally;
use generate::Generator;
use pair::Pair;

/// Besides these there are starts, arrivals and closes.
const MESSAGES: u64 = 1_000_000;

/// How many in a thousand refusals of flags must be of each flaw: there are 31, and the rarest has 15.
const FLAW_SHARE: u64 = 5;

/// All that 01 lets a call come to: every refusal at every stage that has it, every step.
const EXPECTED: &str = "
new, raw | new, safe
new, raw: refusal 6 | new, raw: refusal 9 | new, safe: refusal 6 | new, safe: refusal 9
start | start: refusal 1 | start: refusal 6 | start: refusal 12 | start: refusal 13
arrive | arrive: refusal 13
close | close: refusal 2
Free: refusal 1 | Free: refusal 2
Connected: refusal 1 | Connected: refusal 10

AwaitsName: refusal 1 | AwaitsName: refusal 3 | AwaitsName: refusal 4 | AwaitsName: refusal 5
AwaitsName: refusal 6 | AwaitsName: refusal 9
AwaitsName -> Free, sent not_allowed | AwaitsName -> Free, sent nok
AwaitsName -> AwaitsReply, sent ok | AwaitsName -> AwaitsReply, sent ok_simultaneous, another freed
AwaitsName -> AwaitsAlive, sent alive

AwaitsAlive: refusal 1 | AwaitsAlive: refusal 3 | AwaitsAlive: refusal 4 | AwaitsAlive: refusal 14
AwaitsAlive -> AwaitsReply | AwaitsAlive -> Free

AwaitsReply: refusal 1 | AwaitsReply: refusal 11 | AwaitsReply: refusal 3 | AwaitsReply: refusal 4
AwaitsReply: refusal 5 | AwaitsReply: refusal 15
AwaitsReply -> Connected | AwaitsReply -> Connected, another freed

AwaitsStatus: refusal 1 | AwaitsStatus: refusal 3 | AwaitsStatus: refusal 4
AwaitsStatus: refusal 14 | AwaitsStatus: refusal 16
AwaitsStatus -> AwaitsChallenge | AwaitsStatus -> AwaitsChallenge, sent true

AwaitsChallenge: refusal 1 | AwaitsChallenge: refusal 11 | AwaitsChallenge: refusal 3
AwaitsChallenge: refusal 4 | AwaitsChallenge: refusal 5 | AwaitsChallenge: refusal 6
AwaitsChallenge: refusal 9
AwaitsChallenge -> AwaitsAck

AwaitsAck: refusal 1 | AwaitsAck: refusal 11 | AwaitsAck: refusal 3 | AwaitsAck: refusal 4
AwaitsAck: refusal 5 | AwaitsAck: refusal 15
AwaitsAck -> Connected
";

fn expected<'a>() -> impl Iterator<Item = &'a str> {
    let all = EXPECTED.split(['|', '\n']);
    all.map(str::trim).filter(|what| !what.is_empty())
}

/// One sequence of random calls.
fn sequence(seed: u64, tally: &mut Tally) {
    let mut rng = Rng(seed);
    let generator = Generator::new(&mut rng);
    let length = *rng.pick(&[5, 30, 200, 600, 600, 4000]);
    let mut pair = Pair::default();
    let mut calls: Vec<Call> = Vec::with_capacity(length);
    for at in 0..length {
        calls.push(match pair.model() {
            None => generator.first(&mut rng),
            Some(model) => generator.call(&mut rng, model),
        });
        if attempt(&mut pair, &calls[at], tally).is_err() {
            report::<Pair>(seed, calls);
        }
    }
}

#[test]
fn random_sequences() {
    let first = seed();
    let wanted = MESSAGES * rounds();
    let mut tally = Tally::default();
    let mut sequences = 0;
    while tally.times("messages") < wanted {
        sequence(sequence_seed(first, sequences), &mut tally);
        sequences += 1;
    }
    println!("seed {first}, {sequences} sequences");
    tally.print();
    tally.assert_seen(expected());
    let flaws = flags::flaws();
    for (call, flaw) in &flaws {
        tally.assert_share(flaw, FLAW_SHARE, call);
    }
    let looks = cookies::counted();
    for (right, look) in &looks {
        tally.assert_share(look, cookies::LOOK_SHARE, right);
    }
    let flaws = flaws.iter().map(|(_, flaw)| flaw.as_str());
    let looks = looks.iter().flat_map(|(right, look)| [&right[..], look]);
    let others = flaws.chain(looks).chain(["calls", "messages"]);
    tally.assert_nothing_but(expected().chain(others));
}

/// Otherwise trying a second seed would say nothing.
#[test]
fn another_seed_runs_other_sequences() {
    let of = |run| (0..3_000).map(move |number| sequence_seed(run, number));
    let first: HashSet<u64> = of(11).collect();
    for run in [10, 12, 13, 11 ^ 1 << 40] {
        assert!(of(run).all(|seed| !first.contains(&seed)), "{run}");
    }
}

/// Runs the calls of the file that the variable `BIRKENSCHUH_REPLAY` names, or else a short sequence
/// that shows what such a file looks like.
#[test]
fn replay() {
    common::differ::replay::<Pair>(include_str!("replay.txt"));
}
