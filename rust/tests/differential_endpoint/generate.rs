//! Random calls of the endpoint. The next message is made from the model's state, so that many
//! handshakes come to their end and every stage is left in every way.

use birkenschuh::{ENDPOINT_OUTPUT, SLOTS};
use model::{digest, Stage};

use crate::calls::{Call, Message};
use crate::common::frames::*;
use crate::common::rng::Rng;
use crate::cookies::{cookie, COOKIE_LENGTHS};
use crate::fields::{bad_flags, broken_name, flags, full_name, good_flags, near};

/// Status words that move an initiator on, and others.
const STATUS: [&[u8]; 3] = [b"ok", b"ok_simultaneous", b"alive"];
const OTHER_STATUS: [&[u8]; 7] = [
    b"nok",
    b"not_allowed",
    b"true",
    b"false",
    b"",
    b"ok\0",
    b"named:",
];

const ALIVE_ANSWERS: [&[u8]; 2] = [b"true", b"false"];
const OTHER_ANSWERS: [&[u8]; 4] = [b"ok", b"tru", b"true ", b""];

const STAGES: [Stage; 6] = [
    Stage::AwaitsName,
    Stage::AwaitsAlive,
    Stage::AwaitsReply,
    Stage::AwaitsStatus,
    Stage::AwaitsChallenge,
    Stage::AwaitsAck,
];

/// What the calls of one sequence draw from.
pub struct Generator {
    own_name: Vec<u8>,
    peers: Vec<Vec<u8>>,
    cookies: [Vec<u8>; 2],
    /// In a hundred calls: closes, and of the others starts and arrivals.
    closes: usize,
    beginnings: usize,
}

impl Generator {
    pub fn new(rng: &mut Rng) -> Generator {
        let own_name = full_name(rng);
        let many = *rng.pick(&[1, 3, 12, 60]);
        let mut peers: Vec<Vec<u8>> = (0..many).map(|_| near(rng, &own_name)).collect();
        if rng.chance(30) {
            peers.push(own_name.clone());
        }
        let cookies = [1, 2].map(|_| {
            // Those of a length at the borders are made anew for each message.
            let length = 3 + rng.below(30);
            cookie(rng, length)
        });
        Generator {
            own_name,
            peers,
            cookies,
            closes: *rng.pick(&[1, 4, 15]),
            beginnings: *rng.pick(&[10, 25, 70]),
        }
    }

    pub fn first(&self, rng: &mut Rng) -> Call {
        self.made_with(rng, good_flags)
    }

    fn made_with(&self, rng: &mut Rng, flags: fn(&mut Rng) -> u64) -> Call {
        let name = self.own_name.clone();
        let flags = flags(rng);
        Call::New {
            raw: rng.chance(50),
            name,
            flags,
            creation: rng.border_u32(),
        }
    }

    pub fn call(&self, rng: &mut Rng, model: &model::Endpoint) -> Call {
        match rng.below(500) {
            0 => return self.remake(rng),
            1..=5 => return self.made_with(rng, bad_flags),
            _ => (),
        }
        if rng.chance(self.closes) {
            // Connected slots too, or in the end every peer has one.
            let any = rng.below(SLOTS);
            let slot = slot(rng, model);
            return Call::Close {
                slot: if rng.chance(60) { any } else { slot },
            };
        }
        // With nobody on the way, most messages would find a free slot.
        let idle = busy(model).is_empty() && rng.chance(90);
        if !idle && !rng.chance(self.beginnings) {
            return Call::Message(self.message(rng, model));
        }
        let name = match rng.below(20) {
            0..=7 => None,
            8 => Some(broken_name(rng)),
            9..=10 => Some(self.peer(rng)),
            _ => self.stranger(rng, model),
        };
        let room = room(rng);
        name.map_or(Call::Arrive, |name| Call::Start { name, room })
    }

    /// A peer that has no slot, if a few tries find one.
    fn stranger(&self, rng: &mut Rng, model: &model::Endpoint) -> Option<Vec<u8>> {
        let has_slot = |name: &[u8]| (0..SLOTS).any(|at| *model.slot(at).name == *name);
        let mut tries = (0..4).map(|_| self.peer(rng));
        tries.find(|name| !has_slot(name))
    }

    /// Another endpoint, or one that is refused.
    fn remake(&self, rng: &mut Rng) -> Call {
        let name = if rng.chance(30) {
            full_name(rng)
        } else {
            broken_name(rng)
        };
        let flags = if rng.chance(50) {
            flags(rng)
        } else {
            rng.next()
        };
        Call::New {
            raw: rng.chance(50),
            name,
            flags,
            creation: rng.border_u32(),
        }
    }

    fn peer(&self, rng: &mut Rng) -> Vec<u8> {
        rng.pick(&self.peers).clone()
    }

    fn message(&self, rng: &mut Rng, model: &model::Endpoint) -> Message {
        let slot = slot(rng, model);
        let (own, standard) = self.cookies(rng);
        let cookie = if own.is_empty() { &standard } else { &own };
        let at = model.slot(slot % SLOTS);
        let mut frame = match rng.below(100) {
            0..=3 => {
                let stage = *rng.pick(&STAGES);
                self.frame(rng, model, at, stage, cookie)
            }
            4..=5 => noise(rng),
            _ => self.frame(rng, model, at, at.stage, cookie),
        };
        if rng.chance(8) {
            damage(rng, &mut frame);
        }
        Message {
            slot,
            frame,
            challenge: rng.border_u32(),
            own,
            standard,
            room: room(rng),
        }
    }

    /// What a peer might send to a slot of this stage; mostly what moves it on.
    fn frame(
        &self,
        rng: &mut Rng,
        model: &model::Endpoint,
        at: &model::Slot,
        stage: Stage,
        cookie: &[u8],
    ) -> Vec<u8> {
        let (flags, creation, number) = (flags(rng), rng.border_u32(), rng.border_u32());
        let mut frame = match stage {
            Stage::AwaitsName => {
                let name = if rng.chance(95) {
                    self.peer(rng)
                } else {
                    broken_name(rng)
                };
                name_message(flags, creation, &name)
            }
            Stage::AwaitsAlive => return status(word(rng, &ALIVE_ANSWERS, &OTHER_ANSWERS)),
            Stage::AwaitsStatus => return status(word(rng, &STATUS, &OTHER_STATUS)),
            Stage::AwaitsChallenge => {
                let name = if rng.chance(95) {
                    at.name.to_vec()
                } else {
                    self.peer(rng)
                };
                challenge_message(flags, number, creation, &name)
            }
            Stage::AwaitsReply => return reply(number, self.proof(rng, model, at, number, cookie)),
            Stage::AwaitsAck | Stage::Free | Stage::Connected => {
                return acknowledgement(self.proof(rng, model, at, number, cookie))
            }
        };
        if rng.chance(15) {
            let more = 1 + rng.below(40);
            frame.extend(rng.bytes(more));
            mend_length(&mut frame);
        }
        frame
    }

    /// Mostly the right digest, else one that looks right.
    fn proof(
        &self,
        rng: &mut Rng,
        model: &model::Endpoint,
        at: &model::Slot,
        number: u32,
        cookie: &[u8],
    ) -> [u8; 16] {
        let mut proof = digest(at.challenge, cookie);
        let text = at.challenge.to_string();
        match rng.below(40) {
            0 => proof[rng.below(16)] ^= 1 << rng.below(8),
            1 => proof = digest(number, cookie),
            2 => proof = digest(at.challenge, &self.cookies[rng.below(2)]),
            3 => proof = digest(model.slot(rng.below(SLOTS)).challenge, cookie),
            4 => proof = model::md5(&[text.as_bytes(), cookie].concat()),
            5 => proof = model::md5(&[cookie, b"0", text.as_bytes()].concat()),
            _ => (),
        }
        proof
    }

    /// The peer's own cookie and the standard one.
    fn cookies(&self, rng: &mut Rng) -> (Vec<u8>, Vec<u8>) {
        let [usual, other] = self.cookies.clone();
        match rng.below(20) {
            0 => (cookie(rng, 1), usual),
            1..=2 => {
                let lengths = [1, 2].map(|_| *rng.pick(&COOKIE_LENGTHS));
                let [own, standard] = lengths.map(|length| cookie(rng, length));
                (own, standard)
            }
            3..=5 => (usual, other),
            6 => (usual, Vec::new()),
            _ => (Vec::new(), usual),
        }
    }
}

/// Mostly one of the usual words.
fn word<'a>(rng: &mut Rng, usual: &[&'a [u8]], others: &[&'a [u8]]) -> &'a [u8] {
    let words = if rng.chance(75) { usual } else { others };
    words[rng.below(words.len())]
}

/// The slots that are neither free nor connected.
fn busy(model: &model::Endpoint) -> Vec<usize> {
    let idle = |at: usize| matches!(model.slot(at).stage, Stage::Free | Stage::Connected);
    (0..SLOTS).filter(|at| !idle(*at)).collect()
}

/// Mostly a slot that is on the way.
fn slot(rng: &mut Rng, model: &model::Endpoint) -> usize {
    let busy = busy(model);
    match rng.below(20) {
        0 => rng.below(SLOTS),
        1 if rng.chance(30) => *rng.pick(&[31, 32, 33, 255, 256, 1 << 31, u32::MAX as usize]),
        _ if busy.is_empty() => rng.below(SLOTS),
        _ => *rng.pick(&busy),
    }
}

fn room(rng: &mut Rng) -> usize {
    match rng.below(60) {
        0 => *rng.pick(&[0, 1, 20, 294, 299]),
        1 => *rng.pick(&[301, 1000]),
        _ => ENDPOINT_OUTPUT,
    }
}
