//! Requests written, served by the mapper, and the replies read: what comes back is what the mapper
//! holds.

use birkenschuh::client::{self, Alive2Reply, Line, Port2Reply};
use birkenschuh::{Refusal, Registration, Registry, PLACES, REGISTRY_OUTPUT};

use crate::calls::Call;
use crate::common::differ::{same, Compared};
use crate::common::node::Fields;
use crate::common::tally::Tally;

pub struct Trip {
    registry: Registry,
    request: [u8; client::REQUEST_OUTPUT],
    reply: Vec<u8>,
}

impl Default for Trip {
    fn default() -> Trip {
        Trip {
            registry: Registry::new(4369, 1).expect("a creation above 0"),
            request: [0; client::REQUEST_OUTPUT],
            reply: vec![0; REGISTRY_OUTPUT],
        }
    }
}

impl Compared for Trip {
    type Call = Call;

    fn apply(&mut self, call: &Call, tally: &mut Tally) -> Result<(), String> {
        match call {
            Call::New {
                port,
                first_creation,
            } => {
                let made = Registry::new(*port, *first_creation);
                self.registry = made.map_err(|refusal| refusal.to_string())?;
                Ok(())
            }
            Call::Register { connection, fields } => self.register(*connection, fields, tally),
            Call::Close { connection } => {
                tally.count(match self.registry.close(*connection) {
                    true => "close frees",
                    false => "close finds none",
                });
                Ok(())
            }
            Call::Ask { name } => self.ask(name, tally),
            Call::List => self.list(tally),
        }
    }
}

impl Trip {
    /// A request that could be written is accepted: the mapper's reply.
    fn served(&mut self, connection: u32, length: usize) -> Result<&[u8], String> {
        let request = &self.request[..length];
        match self.registry.request(connection, request, &mut self.reply) {
            Ok(reply) => Ok(&self.reply[..reply.written]),
            Err(refusal) => Err(format!("the mapper refused: {refusal}")),
        }
    }

    fn register(&mut self, from: u32, fields: &Fields, tally: &mut Tally) -> Result<(), String> {
        let length = match client::alive2_request(&fields.node(), &mut self.request) {
            Ok(length) => length,
            Err(refusal) => return not_written(refusal, tally),
        };
        let before: Vec<Registration> = self.registry.registrations().collect();
        let creation = self.registry.next_creation();
        let result = result(&before, from, &fields.name);
        let told = client::read_alive2(self.served(from, length)?);
        let (tag, short) = match fields.highest {
            6.. => (118, None),
            _ => (121, Some(1 + (creation % 3) as u16)),
        };
        let expected = match (result, short) {
            (0, Some(creation)) => Alive2Reply::RegisteredShort { creation },
            (0, None) => Alive2Reply::Registered { creation },
            _ => Alive2Reply::Failed { tag, result },
        };
        same("what is told", told, Ok(expected))?;
        let new = (self.registry.registrations()).filter(|at| !before.contains(at));
        let new: Vec<Registration> = new.collect();
        let wanted = (result == 0).then(|| registration(from, creation, fields));
        same("what is registered", new, wanted.into_iter().collect())?;
        tally.count(format!("asked to register, {tag}, Result {result}"));
        Ok(())
    }

    fn ask(&mut self, name: &[u8], tally: &mut Tally) -> Result<(), String> {
        let length = match client::port_please2_request(name, &mut self.request) {
            Ok(length) => length,
            Err(refusal) => return not_written(refusal, tally),
        };
        let mut all = self.registry.registrations();
        let at = all.find(|at| at.name == name);
        drop(all);
        let told = client::read_port2(self.served(u32::MAX, length)?);
        tally.count(match at {
            Some(_) => "found",
            None => "not found",
        });
        let fields = at.map(|at| fields(&at));
        let expected = match &fields {
            Some(fields) => Port2Reply::Found(fields.node()),
            None => Port2Reply::Failed { result: 1 },
        };
        same("what is told", told, Ok(expected))
    }

    /// The names and ports of the taken places in their order, unless there is another reading.
    fn list(&mut self, tally: &mut Tally) -> Result<(), String> {
        let length = client::names_request(&mut self.request);
        let length = length.map_err(|refusal| format!("not written: {refusal}"))?;
        let (port, all) = (self.registry.port(), self.registry.registrations());
        let all: Vec<Registration> = all.collect();
        let reply = self.served(u32::MAX, length)?;
        let told = match client::read_names(reply) {
            Ok(told) => told,
            Err(refusal) => {
                tally.count("listed, more than one reading");
                same("the refusal", refusal, Refusal::Ambiguous)?;
                let expected = model::read_names(reply).err();
                return same("the model", Some(model::Refusal::Ambiguous), expected);
            }
        };
        let lines: Vec<Line<'_>> = all.iter().map(line).collect();
        same("the port", told.port(), port)?;
        same("the lines", told.lines(), &lines)?;
        tally.count(match all.len() {
            0 => "listed, none",
            PLACES => "listed, 64",
            1 => "listed, one",
            _ => "listed, some",
        });
        Ok(())
    }
}

/// 02's Result of a registration, by what is registered.
fn result(all: &[Registration], from: u32, name: &[u8]) -> u8 {
    if all.iter().any(|at| at.name == name) {
        1
    } else if all.iter().any(|at| at.connection == from) {
        2
    } else if all.len() == PLACES {
        3
    } else {
        0
    }
}

fn not_written(refusal: Refusal, tally: &mut Tally) -> Result<(), String> {
    tally.count(format!("not written, {}", refusal.number()));
    Ok(())
}

fn line(of: &Registration) -> Line<'_> {
    Line {
        name: &of.name,
        port: of.port,
    }
}

fn registration(connection: u32, creation: u32, fields: &Fields) -> Registration {
    Registration {
        connection,
        creation,
        port: fields.port,
        kind: fields.kind,
        protocol: fields.protocol,
        highest: fields.highest,
        lowest: fields.lowest,
        name: fields.name.clone(),
        extra: fields.extra.clone(),
    }
}

fn fields(of: &Registration) -> Fields {
    Fields {
        port: of.port,
        kind: of.kind,
        protocol: of.protocol,
        highest: of.highest,
        lowest: of.lowest,
        name: of.name.clone(),
        extra: of.extra.clone(),
    }
}
