//! The proved mapper with what a host adds to it: who is closed when, and who may register.
//!
//! The mapper is one value and a request takes it some microseconds, so one thread serves all
//! connections in turn. Threads would only wait for each other at the registry, and could not be
//! bounded as simply.

use std::time::{Duration, Instant};

use birkenschuh::{Alive2Result, Asked, Registry, REGISTRY_OUTPUT};

use crate::callers::Callers;
use crate::connection::{Connection, Node, Why};
use crate::creations::{Creations, May};
use crate::input::{Budget, Filled};
use crate::log::Log;
use crate::sys;

/// 64 frames of the greatest length at a time, or 238 unread replies of the greatest length. See
/// `Budget`.
const LARGE_BYTES: usize = 4 << 20;
/// The ALIVE2 with a Result above 0 that is a connection's last. So a connection has three replies
/// at most, and cannot keep the mapper from others.
pub const LAST_FAILURE: u8 = 2;

const ALIVE2_REQ: u8 = 120;

/// What a connection needs.
#[derive(Debug, PartialEq, Eq)]
pub enum Next {
    Wait,
    /// A registration failed by these nodes. Some may have ended unseen: once those are closed,
    /// `answer_all` has the last word.
    SeekEnded(InTheWay),
    /// A registration has to wait for a creation until then.
    Hold(Instant),
}

/// The nodes by which a registration fails.
#[derive(Debug, PartialEq, Eq)]
pub enum InTheWay {
    /// The one that has this name.
    Name(Vec<u8>),
    /// All, since they have all places.
    All,
}

pub struct Mapper {
    registry: Registry,
    pub creations: Creations,
    /// How many are registered.
    pub nodes: usize,
    out: Box<[u8]>,
    budget: Budget,
    pub rules: Rules,
    pub log: Log,
}

/// What the operator decides.
pub struct Rules {
    /// A connection without a node lives no longer.
    pub idle: Duration,
    pub callers: Callers,
}

impl Mapper {
    pub fn new(registry: Registry, creations: Creations, rules: Rules, log: Log) -> Mapper {
        Mapper {
            registry,
            creations,
            nodes: 0,
            out: vec![0; REGISTRY_OUTPUT].into(),
            budget: Budget::new(LARGE_BYTES),
            rules,
            log,
        }
    }

    /// The connection is ready: sends or reads once, and answers what is complete. An error says
    /// why it is to be closed.
    pub fn attend(&mut self, it: &mut Connection, ready: u32, now: Instant) -> Result<Next, Why> {
        if it.held || !it.all_sent() {
            if ready & (sys::ENDED | sys::FAILED) != 0 {
                return Err(Why::Ended);
            }
            it.send_rest(&mut self.budget)?;
        } else {
            match it.input.fill(&mut it.stream, &mut self.budget) {
                Ok(Filled::Some) => {}
                Ok(Filled::Nothing) => return Ok(Next::Wait),
                Ok(Filled::End) => return Err(Why::Ended),
                Ok(Filled::NoMemory) => return Err(Why::NoMemory),
                Err(error) => return Err(Why::Failed(error)),
            }
        }
        self.answer_all(it, now, false)
    }

    /// Answers the frames that are whole, as long as their replies are taken. `sure`: no node that
    /// is in the way of the first one has ended unseen.
    pub fn answer_all(
        &mut self,
        it: &mut Connection,
        now: Instant,
        mut sure: bool,
    ) -> Result<Next, Why> {
        while it.all_sent() && !it.closes {
            let Some(frame) = it.input.frame() else {
                return Ok(Next::Wait);
            };
            if wants_to_register(frame) {
                if let May::Later(time) = self.may_register(it, now)? {
                    return Ok(Next::Hold(time));
                }
            }
            let reply = self
                .registry
                .request(it.slot, frame, &mut self.out)
                .map_err(Why::Refused)
                .inspect_err(|why| self.say_refused(it, why))?;
            match reply.asked {
                Asked::Alive2 { result, .. } => match in_the_way(it, name(frame), result) {
                    Some(nodes) if !sure => return Ok(Next::SeekEnded(nodes)),
                    _ => self.alive2_answered(it, result),
                },
                Asked::PortPlease2 { .. } | Asked::Names => it.closes = true,
            }
            it.send(&self.out[..reply.written], &mut self.budget)?;
            it.input.drop_frame(&mut self.budget);
            sure = false;
        }
        match it.all_sent() {
            true => Err(Why::Answered),
            false => Ok(Next::Wait),
        }
    }

    /// Whether a creation may be given to this connection, before the registry gives one.
    fn may_register(&mut self, it: &Connection, now: Instant) -> Result<May, Why> {
        if !self.rules.callers.may_register(it.peer, &it.stream) {
            return Err(Why::NotLocal);
        }
        match self.may_give(now) {
            May::Never => Err(Why::NoCreation),
            may => Ok(may),
        }
    }

    /// Whether a creation may be given; a disk that failed is told of.
    pub fn may_give(&mut self, now: Instant) -> May {
        let (may, error) = self.creations.may_give(now);
        if let Some(error) = error {
            self.say_disk_failed(&error);
        }
        may
    }

    /// What the Result of the ALIVE2 at the front leads to.
    fn alive2_answered(&mut self, it: &mut Connection, result: Alive2Result) {
        if result == Alive2Result::Registered {
            return self.registered(it);
        }
        it.failures += 1;
        it.closes = it.failures == LAST_FAILURE;
        self.say_not_registered(it, result);
    }

    fn registered(&mut self, it: &mut Connection) {
        // A failure costs only that a vanished machine's node keeps its name for longer.
        let _ = sys::keep_alive(&it.stream);
        let Some(frame) = it.input.frame() else {
            return;
        };
        it.node = Some(Node {
            name: name(frame).to_vec(),
            port: u16::from_be_bytes([frame[3], frame[4]]),
            creation: self.creations.give(),
        });
        debug_assert_eq!(self.registry.next_creation(), self.creations.next());
        self.nodes += 1;
        self.say_node("registered", it, None);
    }

    /// The connection is closed: frees its place and its memory.
    pub fn closed(&mut self, it: &Connection, why: &Why) {
        self.budget.give_back(it.borrowed());
        if let Why::Answered = why {
            it.finish();
        }
        self.say_closed(it, why);
        if it.node.is_some() {
            self.registry.close(it.slot);
            self.nodes -= 1;
            self.say_node("left", it, Some(why));
        }
    }
}

fn wants_to_register(frame: &[u8]) -> bool {
    frame.get(2) == Some(&ALIVE2_REQ)
}

/// Those on whom the Result depends and nobody else, so that a stranger cannot have more
/// connections looked at. A connection's own node is there: its request came before its end.
fn in_the_way(it: &Connection, name: &[u8], result: Alive2Result) -> Option<InTheWay> {
    match result {
        Alive2Result::NameInUse if it.has_node(name) => None,
        Alive2Result::NameInUse => Some(InTheWay::Name(name.to_vec())),
        Alive2Result::NoPlace => Some(InTheWay::All),
        Alive2Result::Registered | Alive2Result::ConnectionRegistered => None,
    }
}

/// The name in an ALIVE2 that the registry did not refuse.
pub fn name(frame: &[u8]) -> &[u8] {
    let length = usize::from(u16::from_be_bytes([frame[11], frame[12]]));
    &frame[13..13 + length]
}
