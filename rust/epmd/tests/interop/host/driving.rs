//! How a test drives a host, and what it sees of it.

use std::time::Duration;

use super::*;
use crate::node::{connect_node, Node};

/// Short, so that many handshakes take little time.
const PAUSE: Duration = Duration::from_millis(1);

impl Host {
    /// Goes on until something holds.
    pub fn until(&mut self, what: &str, mut holds: impl FnMut(&Host) -> bool) {
        eventually_by(PAUSE, what, || {
            self.turn();
            holds(self)
        });
    }

    /// Goes on until no handshake is on its way.
    pub fn settle(&mut self) {
        self.until("no handshake on its way", |host| {
            host.taken() == host.connected().len()
        });
    }

    /// Goes on with one slot alone until it is at a stage.
    pub fn read_until(&mut self, slot: usize, stage: Stage) {
        eventually_by(PAUSE, &format!("{slot} {stage:?}"), || {
            self.read(slot);
            self.endpoint.slot(slot).stage == stage
        });
    }

    /// A real node's value of an expression, while the host goes on.
    pub fn eval(&mut self, node: &mut Node, expression: &str) -> String {
        node.begin(expression);
        self.end_of(node, expression)
    }

    /// The value of an expression that the node has begun with.
    pub fn end_of(&mut self, node: &mut Node, expression: &str) -> String {
        let mut value = None;
        self.until(expression, |_| {
            value = node.answer();
            value.is_some()
        });
        value.expect("seen before")
    }

    /// What a real node says when it connects to us.
    pub fn called_by(&mut self, node: &mut Node) -> String {
        let connect = connect_node(&self.name);
        self.eval(node, &connect)
    }

    /// Takes the first connection that comes, and leaves its message unread.
    pub fn let_in(&mut self) {
        eventually_by(PAUSE, "a node calls", || {
            self.accept();
            self.connections.values().any(|it| it.waiting() > 0)
        });
    }

    /// How many bytes have come on a slot's connection and are not taken.
    pub fn waiting(&self, slot: usize) -> usize {
        self.connections[&slot].waiting()
    }

    pub fn name(&self) -> &str {
        &self.name
    }

    pub fn creation(&self) -> u32 {
        self.endpoint.own().creation
    }

    pub fn stage(&self, slot: usize) -> Stage {
        self.endpoint.slot(slot).stage
    }

    /// How many slots are taken.
    pub fn taken(&self) -> usize {
        let stages = (0..SLOTS).map(|slot| self.stage(slot));
        stages.filter(|&stage| stage != Stage::Free).count()
    }

    pub fn connected(&self) -> Vec<Peer> {
        let slots = (0..SLOTS).map(|slot| self.endpoint.slot(slot));
        slots
            .filter(|slot| slot.stage == Stage::Connected)
            .map(|slot| Peer {
                name: String::from_utf8(slot.name).expect("UTF-8"),
                flags: slot.flags,
                creation: slot.creation,
            })
            .collect()
    }

    /// What happened on a slot since it was asked last.
    pub fn story(&mut self, slot: usize) -> Vec<String> {
        self.stories.remove(&slot).unwrap_or_default()
    }
}
