//! The library's registry beside the model's.

use birkenschuh::{Alive2Result, Asked, Registration, PLACES, REGISTRY_OUTPUT};

use crate::calls::Call;
use crate::common::differ::{outputs, same, states, Compared};
use crate::common::tally::Tally;
use crate::face::Face;
use crate::situation::Situation;

/// Bytes behind the lent output, which nobody may touch.
const GUARD: usize = 64;

#[derive(Default)]
pub struct Pair {
    state: Option<(Face, model::Registry)>,
    ours: Vec<u8>,
    /// How many bytes of `ours` are the reply to the last request.
    written: usize,
    expected: Vec<u8>,
    bytes: Vec<u8>,
    calls: usize,
}

impl Compared for Pair {
    type Call = Call;

    fn apply(&mut self, call: &Call, tally: &mut Tally) -> Result<(), String> {
        self.calls += 1;
        match call {
            Call::New {
                raw,
                port,
                first_creation,
            } => self.make(*raw, *port, *first_creation, tally),
            Call::Request {
                connection,
                room,
                frame,
            } => self.request(*connection, *room, frame, tally),
            Call::Close { connection } => self.close(*connection, tally),
        }
    }
}

impl Pair {
    pub fn model(&self) -> Option<&model::Registry> {
        self.state.as_ref().map(|(_, model)| model)
    }

    pub fn library(&self) -> Option<&Face> {
        self.state.as_ref().map(|(library, _)| library)
    }

    /// The library's reply to the last request, empty if it was refused.
    pub fn reply(&self) -> &[u8] {
        &self.ours[..self.written]
    }

    /// A refused making leaves the registry before it where it is.
    fn make(&mut self, raw: bool, port: u16, first: u32, tally: &mut Tally) -> Result<(), String> {
        let ours = Face::new(raw, port, first);
        let expected = model::Registry::new(port, first).map_err(model::Refusal::number);
        same("the refusal", ours.as_ref().err(), expected.as_ref().err())?;
        match (ours, expected) {
            (Ok(ours), Ok(expected)) => {
                tally.count(if raw { "new, raw" } else { "new, safe" });
                self.state = Some((ours, expected));
                self.compare_states()
            }
            (Err(refusal), _) => {
                tally.count(format!("refusal {refusal}"));
                Ok(())
            }
            _ => unreachable!("refusals are equal"),
        }
    }

    /// Another pattern at each call: a stray byte has but one chance in 256 to look right.
    fn new_outputs(&mut self, room: usize) {
        let pattern = (self.calls * 37) as u8 ^ 0xa5;
        for output in [&mut self.ours, &mut self.expected] {
            output.clear();
            output.resize(room + GUARD, pattern);
        }
        self.written = 0;
    }

    fn request(
        &mut self,
        connection: u32,
        room: usize,
        frame: &[u8],
        tally: &mut Tally,
    ) -> Result<(), String> {
        self.new_outputs(room);
        let Some((ours, expected)) = &mut self.state else {
            return Ok(());
        };
        tally.count("requests");
        let before = expected.next_creation();
        let situation = Situation::before(expected, connection, frame);
        let answer = ours.request(connection, frame, &mut self.ours[..room]);
        let told = expected.request(connection, frame, &mut self.expected[..room]);
        let told = told.map_err(model::Refusal::number);
        same("the answer", answer.map(|(written, _)| written), told)?;
        outputs(&self.ours, &self.expected)?;
        if before > expected.next_creation() {
            tally.count("creation wrapped");
        }
        match answer {
            Ok((written, asked)) => {
                self.written = written;
                let reply = &self.expected[..written];
                if let Some(asked) = asked {
                    same("what was asked", asked, asked_by(reply, frame[2]))?;
                }
                count_reply(reply, frame[2], tally);
                if let Some(situation) = situation {
                    count_registration(reply, situation, tally);
                }
            }
            Err(refusal) => tally.count(format!("refusal {refusal}")),
        }
        self.compare_states()
    }

    fn close(&mut self, connection: u32, tally: &mut Tally) -> Result<(), String> {
        let Some((ours, expected)) = &mut self.state else {
            return Ok(());
        };
        let freed = ours.close(connection);
        same("what close tells", freed, expected.close(connection))?;
        tally.count(if freed {
            "close frees"
        } else {
            "close finds none"
        });
        self.compare_states()
    }

    /// Whole states as bytes; now and then also what a host is shown of them.
    fn compare_states(&mut self) -> Result<(), String> {
        let Some((ours, expected)) = &self.state else {
            return Ok(());
        };
        self.bytes.clear();
        expected.put_bytes(&mut self.bytes);
        states(ours.bytes(), &self.bytes)?;
        if self.calls % 16 != 0 {
            return Ok(());
        }
        same("the port", ours.port(), expected.port())?;
        same(
            "the next creation",
            ours.next_creation(),
            expected.next_creation(),
        )?;
        for place in 0..PLACES + 2 {
            let expected = expected.entry(place).map(registration);
            same(&format!("place {place}"), ours.entry(place), expected)?;
        }
        Ok(())
    }
}

fn registration(of: &model::Registration) -> Registration {
    Registration {
        connection: of.connection,
        creation: of.creation,
        port: of.port,
        kind: of.kind,
        protocol: of.protocol,
        highest: of.highest,
        lowest: of.lowest,
        name: of.name.to_vec(),
        extra: of.extra.to_vec(),
    }
}

/// What a Result means. Said here once more, since the wrapper's `of` would only agree with itself.
fn meaning(result: u8) -> Alive2Result {
    match result {
        0 => Alive2Result::Registered,
        1 => Alive2Result::NameInUse,
        2 => Alive2Result::ConnectionRegistered,
        3 => Alive2Result::NoPlace,
        _ => unreachable!("the model's Result is {result}"),
    }
}

/// What the model's reply says.
fn asked_by(reply: &[u8], tag: u8) -> Asked {
    match (tag, reply.len()) {
        (120, 6) => Asked::Alive2 {
            result: meaning(reply[1]),
            creation: u32::from_be_bytes(reply[2..].try_into().expect("four bytes")),
        },
        (120, _) => Asked::Alive2 {
            result: meaning(reply[1]),
            creation: u32::from(reply[2]) * 256 + u32::from(reply[3]),
        },
        (122, length) => Asked::PortPlease2 { found: length > 2 },
        _ => Asked::Names,
    }
}

fn count_reply(reply: &[u8], tag: u8, tally: &mut Tally) {
    match tag {
        110 if reply.len() == REGISTRY_OUTPUT => tally.count("names, longest reply"),
        110 if reply.len() == 4 => tally.count("names, none"),
        110 => tally.count("names, some"),
        _ => tally.count(format!("reply {} result {}", reply[0], reply[1])),
    }
}

fn count_registration(reply: &[u8], found: Situation, tally: &mut Tally) {
    tally.count("registrations");
    tally.count(format!("{}, {found}: {}", reply[0], reply[1]));
}
