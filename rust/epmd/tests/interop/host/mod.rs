//! A host above the proved endpoint: a node without processes that real nodes connect to, and that
//! connects to them.
//!
//! It has no thread. The test drives it, and so decides what is read, and when.

mod connection;
mod driving;
mod registering;
mod story;

use std::collections::BTreeMap;
use std::fs::File;
use std::io::Read;
use std::net::{TcpListener, TcpStream};

use birkenschuh::client::Alive2Reply;
use birkenschuh::{Cookies, Endpoint, Refusal, Stage, ENDPOINT_OUTPUT, SLOTS};

use connection::{Connection, Traffic};
pub use registering::{ask_for_name, port_of};
pub use story::{ACCEPTED, LEFT_BY_CALLED, LEFT_BY_CALLER, STARTED};

use crate::node::{full_name, COOKIE};
use crate::raw::listen;
use crate::support::*;

/// The required flags and DFLAG_MANDATORY_25_DIGEST, which real nodes have at bit 26.
pub const WITH_26: u64 = 0x4_0700_0104;

/// An endpoint and all its connections, one for each slot that is taken.
pub struct Host {
    name: String,
    endpoint: Endpoint,
    connections: BTreeMap<usize, Connection>,
    listener: TcpListener,
    port: u16,
    mapper: u16,
    registrations: Vec<TcpStream>,
    random: File,
    /// What happened, by slots.
    stories: BTreeMap<usize, Vec<String>>,
    /// Why connections that came got no slot.
    pub turned_away: Vec<Refusal>,
    /// The cookie for peers that have none of their own.
    pub standard: Vec<u8>,
    /// Cookies of some peers' own, by full names.
    own: BTreeMap<Vec<u8>, Vec<u8>>,
    pub answers_ticks: bool,
    /// What came behind handshakes.
    pub traffic: Traffic,
}

/// What is recorded of a peer that is connected.
#[derive(Debug, PartialEq, Eq)]
pub struct Peer {
    pub name: String,
    pub flags: u64,
    pub creation: u32,
}

impl Host {
    pub fn new(mapper: &Mapper, name: &str) -> Host {
        Host::with_flags(mapper, name, WITH_26)
    }

    /// Its creation is the one that the mapper gives.
    pub fn with_flags(mapper: &Mapper, name: &str, flags: u64) -> Host {
        let (listener, port) = listen();
        let (registration, reply) = ask_for_name(mapper.port, name, port);
        let Alive2Reply::Registered { creation } = reply else {
            panic!("{name}: {reply:?}");
        };
        let name = full_name(name);
        Host {
            endpoint: Endpoint::new(name.as_bytes(), flags, creation).expect("good flags"),
            name,
            connections: BTreeMap::new(),
            listener,
            port,
            mapper: mapper.port,
            registrations: vec![registration],
            random: File::open("/dev/urandom").expect("random numbers"),
            stories: BTreeMap::new(),
            turned_away: Vec::new(),
            standard: COOKIE.into(),
            own: BTreeMap::new(),
            answers_ticks: true,
            traffic: Traffic::default(),
        }
    }

    /// Nodes of another mapper find it too, under any name.
    pub fn register_at(&mut self, mapper: &Mapper, name: &str) {
        let (registration, reply) = ask_for_name(mapper.port, name, self.port);
        assert!(matches!(reply, Alive2Reply::Registered { .. }), "{reply:?}");
        self.registrations.push(registration);
    }

    /// A cookie of a peer's own; none if it has no bytes.
    pub fn set_cookie(&mut self, peer: &str, cookie: &[u8]) {
        self.own.insert(full_name(peer).into(), cookie.to_vec());
    }

    /// Starts towards a node of its mapper, and gives the slot.
    pub fn call(&mut self, peer: &str) -> Result<usize, Refusal> {
        self.call_at(peer, port_of(self.mapper, peer))
    }

    /// Starts towards a node that listens at `port`.
    pub fn call_at(&mut self, peer: &str, port: u16) -> Result<usize, Refusal> {
        let mut out = [0; ENDPOINT_OUTPUT];
        let started = self.endpoint.start(full_name(peer).as_bytes(), &mut out)?;
        let connection = Connection::new(send(port, &out[..started.written]));
        self.connections.insert(started.slot, connection);
        Ok(started.slot)
    }

    /// Ends the connection with a peer.
    pub fn close(&mut self, peer: &str) {
        let name = full_name(peer).into_bytes();
        let slot = (0..SLOTS).find(|&slot| self.endpoint.slot(slot).name == name);
        let slot = slot.expect("a slot of the peer's");
        self.endpoint.close(slot).expect("a slot that is taken");
        self.connections.remove(&slot);
    }

    /// Takes what has come on all connections, and on new ones.
    pub fn turn(&mut self) {
        self.accept();
        for slot in 0..SLOTS {
            self.read(slot);
        }
    }

    /// Takes the connections that have come, and reads nothing.
    pub fn accept(&mut self) {
        while let Ok((stream, _)) = self.listener.accept() {
            match self.endpoint.arrive() {
                Ok(slot) => drop(self.connections.insert(slot, Connection::new(stream))),
                Err(refusal) => self.turned_away.push(refusal),
            }
        }
    }

    /// Takes what has come on a slot's connection.
    pub fn read(&mut self, slot: usize) {
        let Some(connection) = self.connections.get_mut(&slot) else {
            return;
        };
        let ended = connection.gather();
        while let Some(frame) = self.next_message(slot) {
            self.message(slot, &frame);
        }
        self.pass_traffic(slot);
        if ended {
            self.end(slot);
        }
    }

    fn next_message(&mut self, slot: usize) -> Option<Vec<u8>> {
        let connection = self.connections.get_mut(&slot)?;
        match self.endpoint.slot(slot).stage {
            // The next byte belongs to a frame of another kind.
            Stage::Connected => None,
            _ => connection.message(),
        }
    }

    fn message(&mut self, slot: usize, frame: &[u8]) {
        let mut out = [0; ENDPOINT_OUTPUT];
        let challenge = self.fresh_challenge();
        let peer = self.endpoint.slot(slot).name;
        let cookies = Cookies {
            own: self.own.get(&peer).map_or(&[], Vec::as_slice),
            standard: &self.standard,
        };
        let answer = (self.endpoint).message(slot, frame, challenge, cookies, &mut out);
        let output = &out[..answer.map_or(0, |it| it.written)];
        self.note(slot, story::line(frame, output, answer));
        if let Some(connection) = self.connections.get_mut(&slot) {
            connection.send(output);
        }
        if answer.map_or_else(|it| it.slot_freed, |it| it.stage == Stage::Free) {
            self.connections.remove(&slot);
        }
        if let Some(other) = answer.ok().and_then(|it| it.freed) {
            self.connections.remove(&other);
        }
    }

    fn note(&mut self, slot: usize, line: String) {
        self.stories.entry(slot).or_default().push(line);
    }

    fn fresh_challenge(&mut self) -> u32 {
        let mut bytes = [0; 4];
        self.random.read_exact(&mut bytes).expect("random numbers");
        u32::from_ne_bytes(bytes)
    }

    fn pass_traffic(&mut self, slot: usize) {
        let connected = self.endpoint.slot(slot).stage == Stage::Connected;
        let Some(connection) = self.connections.get_mut(&slot).filter(|_| connected) else {
            return;
        };
        let passed = connection.pass_over();
        if self.answers_ticks {
            (0..passed.ticks).for_each(|_| connection.tick());
        }
        self.traffic.ticks += passed.ticks;
        self.traffic.others += passed.others;
    }

    /// The stream has ended. Where a message has freed the slot, that was seen before.
    fn end(&mut self, slot: usize) {
        if self.connections.remove(&slot).is_some() {
            let stage = self.endpoint.slot(slot).stage;
            self.note(slot, format!("{stage:?} > end"));
            self.endpoint.close(slot).expect("a slot that is taken");
        }
    }
}
