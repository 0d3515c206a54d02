//! Calls that bring a slot to a stage, straight from 01.

use birkenschuh::{Stage, ENDPOINT_OUTPUT};
use model::digest;

use crate::calls::{Call, Message};
use crate::common::differ::{attempt, report};
use crate::common::frames::*;
use crate::common::tally::Tally;
use crate::pair::Pair;

pub const OWN: &[u8] = b"m@host";
pub const PEER: &[u8] = b"n@host";
pub const LESSER: &[u8] = b"m@hos";
pub const COOKIE: &[u8] = b"monster";
/// The challenge that our side sends in every message made here.
pub const OURS: u32 = 4_294_967_295;
/// The challenge that the peer sends.
pub const THEIRS: u32 = 0;

/// A message with all else in order.
pub fn message(slot: usize, frame: Vec<u8>) -> Call {
    let (own, standard) = (Vec::new(), COOKIE.to_vec());
    Call::Message(Message {
        slot,
        frame,
        challenge: OURS,
        own,
        standard,
        room: ENDPOINT_OUTPUT,
    })
}

/// A call with its message edited, if it is one.
pub fn edited(call: &Call, edit: impl Fn(&mut Message)) -> Call {
    let mut call = call.clone();
    if let Call::Message(message) = &mut call {
        edit(message);
    }
    call
}

pub fn start(name: &[u8]) -> Call {
    Call::Start {
        name: name.to_vec(),
        room: ENDPOINT_OUTPUT,
    }
}

/// The message that moves a slot on from this stage.
pub fn good(stage: Stage) -> Vec<u8> {
    match stage {
        Stage::AwaitsName => name_message(GOOD_FLAGS, 5, PEER),
        Stage::AwaitsAlive => status(b"true"),
        Stage::AwaitsReply => reply(THEIRS, digest(OURS, COOKIE)),
        Stage::AwaitsStatus => status(b"ok"),
        Stage::AwaitsChallenge => challenge_message(GOOD_FLAGS, THEIRS, 5, PEER),
        Stage::AwaitsAck => acknowledgement(digest(OURS, COOKIE)),
        Stage::Free | Stage::Connected => frame(b"?"),
    }
}

/// Calls after which the slot told is at this stage.
pub fn reach(stage: Stage) -> (Vec<Call>, usize) {
    let accepted = [Stage::AwaitsName, Stage::AwaitsReply];
    let started = [
        Stage::AwaitsStatus,
        Stage::AwaitsChallenge,
        Stage::AwaitsAck,
    ];
    let through = |stages: &[Stage], slot| {
        let on = stages.iter().map(|stage| message(slot, good(*stage)));
        on.collect::<Vec<Call>>()
    };
    let before = |stages: &[Stage]| {
        stages
            .iter()
            .position(|at| *at == stage)
            .unwrap_or(stages.len())
    };
    match stage {
        Stage::Free => (vec![], 0),
        Stage::AwaitsName | Stage::AwaitsReply => {
            let steps = &accepted[..before(&accepted)];
            ([vec![Call::Arrive], through(steps, 0)].concat(), 0)
        }
        Stage::AwaitsAlive => {
            let connected = [vec![Call::Arrive], through(&accepted, 0)].concat();
            let second = vec![Call::Arrive, message(1, good(Stage::AwaitsName))];
            ([connected, second].concat(), 1)
        }
        _ => {
            let steps = &started[..before(&started)];
            ([vec![start(PEER)], through(steps, 0)].concat(), 0)
        }
    }
}

/// The stages at which a message is taken in.
pub const OPEN: [Stage; 6] = [
    Stage::AwaitsName,
    Stage::AwaitsAlive,
    Stage::AwaitsReply,
    Stage::AwaitsStatus,
    Stage::AwaitsChallenge,
    Stage::AwaitsAck,
];

/// For each frame, the calls that reach the stage and then a message of that frame.
pub fn then(stage: Stage, frames: impl IntoIterator<Item = Vec<u8>>) -> Vec<Vec<Call>> {
    let (before, slot) = reach(stage);
    let with = |frame| [before.clone(), vec![message(slot, frame)]].concat();
    frames.into_iter().map(with).collect()
}

/// Runs each list of calls on a fresh endpoint, through both faces of the library.
pub fn run(lists: impl IntoIterator<Item = Vec<Call>>) -> Tally {
    let mut tally = Tally::default();
    for calls in lists {
        for raw in [false, true] {
            let name = OWN.to_vec();
            let made = Call::New {
                raw,
                name,
                flags: GOOD_FLAGS,
                creation: 7,
            };
            let mut all = [vec![made], calls.clone()].concat();
            let mut pair = Pair::default();
            for at in 0..all.len() {
                if attempt(&mut pair, &all[at], &mut tally).is_err() {
                    all.truncate(at + 1);
                    report::<Pair>(0, all);
                }
            }
        }
    }
    tally
}
