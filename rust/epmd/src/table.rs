//! The open connections, by tokens that are never taken for those of connections before.

use std::net::{SocketAddr, TcpStream};
use std::time::Instant;

use crate::connection::Connection;
use crate::mapper::InTheWay;
use crate::order::Order;

pub struct Table {
    slots: Vec<Option<Connection>>,
    free: Vec<usize>,
    /// Those without a node, in the order of their opening, which is that of their deadlines.
    callers: Order,
    /// Those with a node.
    nodes: Vec<usize>,
    limit: usize,
    /// How many there have been.
    count: u64,
}

impl Table {
    pub fn new(limit: usize) -> Table {
        Table {
            slots: Vec::new(),
            free: Vec::new(),
            callers: Order::new(),
            nodes: Vec::new(),
            limit,
            count: 0,
        }
    }

    pub fn limit(&self) -> usize {
        self.limit
    }

    pub fn is_full(&self) -> bool {
        self.free.is_empty() && self.slots.len() >= self.limit
    }

    /// The token of a new connection, or nothing if there are as many as there may be. All have the
    /// same time to live, so that deadlines come in the order of opening.
    pub fn add(&mut self, stream: TcpStream, peer: SocketAddr, deadline: Instant) -> Option<u64> {
        let slot = match self.free.pop() {
            Some(slot) => slot,
            None if self.slots.len() < self.limit => {
                self.slots.push(None);
                self.slots.len() - 1
            }
            None => return None,
        };
        self.count += 1;
        let it = Connection::new(stream, peer, self.count, slot as u32, deadline);
        let token = token(&it);
        self.slots[slot] = Some(it);
        self.callers.push(slot);
        Some(token)
    }

    pub fn get(&mut self, token: u64) -> Option<&mut Connection> {
        let slot = self.slots.get_mut(slot(token))?.as_mut();
        slot.filter(|it| self::token(it) == token)
    }

    /// The connection has registered a node: it has no deadline any more.
    pub fn settle_node(&mut self, token: u64) {
        let slot = slot(token);
        if !self.nodes.contains(&slot) {
            self.callers.remove(slot);
            self.nodes.push(slot);
        }
    }

    pub fn remove(&mut self, token: u64) -> Option<Connection> {
        self.get(token)?;
        let slot = slot(token);
        self.free.push(slot);
        self.callers.remove(slot);
        self.nodes.retain(|&node| node != slot);
        self.slots[slot].take()
    }

    /// The connection without a node whose deadline is nearest.
    pub fn first_caller(&self) -> Option<&Connection> {
        self.slots[self.callers.first()?].as_ref()
    }

    /// Those of the nodes whose connection has ended, told of by the poll or not.
    pub fn ended_nodes(&self, among: &InTheWay) -> Vec<u64> {
        let nodes = self.nodes.iter().filter_map(|&at| self.slots[at].as_ref());
        let is_among = |it: &&Connection| match among {
            InTheWay::Name(name) => it.has_node(name),
            InTheWay::All => true,
        };
        let ended = nodes.filter(is_among).filter(|it| it.has_ended());
        ended.map(token).collect()
    }
}

/// The slot, and above it what tells this connection from others that had the slot.
pub fn token(it: &Connection) -> u64 {
    it.number << 32 | u64::from(it.slot)
}

fn slot(token: u64) -> usize {
    (token & 0xffff_ffff) as usize
}
