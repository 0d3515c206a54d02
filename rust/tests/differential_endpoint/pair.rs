//! The library's endpoint beside the model's.

use birkenschuh::{Own, Slot, Stage, Started, SLOTS};

use crate::calls::{Call, Message};
use crate::common::differ::{outputs, same, states, Compared};
use crate::common::tally::Tally;
use crate::cookies::count_right;
use crate::face::Face;
use crate::told::{flaw, Made, Numbers, Told};

/// Bytes behind the lent output, which nobody may touch.
const GUARD: usize = 64;

#[derive(Default)]
pub struct Pair {
    state: Option<(Face, model::Endpoint)>,
    own: Option<Own>,
    ours: Vec<u8>,
    expected: Vec<u8>,
    bytes: Vec<u8>,
    calls: usize,
}

impl Compared for Pair {
    type Call = Call;

    fn apply(&mut self, call: &Call, tally: &mut Tally) -> Result<(), String> {
        self.calls += 1;
        let Some((ours, expected)) = &mut self.state else {
            return self.make(call, tally);
        };
        match call {
            Call::New { .. } => return self.make(call, tally),
            Call::Start { name, room } => self.start(name, *room, tally)?,
            Call::Arrive => {
                let answer = ours.arrive();
                same("the answer", answer, number(expected.arrive()))?;
                tally.count(named("arrive", answer));
            }
            Call::Close { slot } => {
                let answer = ours.close(*slot);
                same("the answer", answer, number(expected.close(*slot)))?;
                tally.count(named("close", answer));
            }
            Call::Message(message) => {
                tally.count("messages");
                self.message(message, tally)?;
            }
        }
        tally.count("calls");
        self.compare_states()
    }
}

fn number<T>(answer: Result<T, model::Refusal>) -> Result<T, u32> {
    answer.map_err(model::Refusal::number)
}

/// What a call came to, in a few words.
fn named<T>(call: &str, answer: Result<T, u32>) -> String {
    match answer {
        Ok(_) => call.to_string(),
        Err(refusal) => format!("{call}: refusal {refusal}"),
    }
}

fn stage(of: model::Stage) -> Stage {
    Stage::ALL[of as usize]
}

impl Pair {
    pub fn model(&self) -> Option<&model::Endpoint> {
        self.state.as_ref().map(|(_, model)| model)
    }

    /// Makes a new endpoint; a refusal leaves the one before it where it is.
    fn make(&mut self, call: &Call, tally: &mut Tally) -> Result<(), String> {
        let Call::New {
            raw,
            name,
            flags,
            creation,
        } = call
        else {
            return Ok(());
        };
        let (ours, told) = Face::new(*raw, name, *flags, *creation);
        let expected = model::Endpoint::new(name, *flags, *creation);
        let told_expected = Made::of(expected.as_ref().map_err(|refusal| *refusal));
        same("the answer", told, told_expected)?;
        let what = if *raw { "new, raw" } else { "new, safe" };
        match told.numbers.refusal {
            0 => tally.count(what),
            _ => count_refusal(what, told.numbers, *flags, tally),
        }
        if let (Some(ours), Ok(expected)) = (ours, expected) {
            self.state = Some((ours, expected));
            self.own = Some(Own {
                name: name.clone(),
                flags: *flags,
                creation: *creation,
            });
        }
        self.compare_states()
    }

    /// Both outputs in a pattern, another one at each call.
    fn fill(&mut self, room: usize) {
        let pattern = (self.calls * 37) as u8 ^ 0xa5;
        for output in [&mut self.ours, &mut self.expected] {
            output.clear();
            output.resize(room + GUARD, pattern);
        }
    }

    fn start(&mut self, name: &[u8], room: usize, tally: &mut Tally) -> Result<(), String> {
        self.fill(room);
        let (ours, expected) = self.state.as_mut().expect("an endpoint was made");
        let answer = ours.start(name, &mut self.ours[..room]);
        let told = number(expected.start(name, &mut self.expected[..room]));
        let told = told.map(|told| Started {
            slot: told.slot,
            written: told.written,
        });
        same("the answer", answer, told)?;
        tally.count(named("start", answer));
        outputs(&self.ours, &self.expected)
    }

    fn message(&mut self, message: &Message, tally: &mut Tally) -> Result<(), String> {
        self.fill(message.room);
        let (ours, expected) = self.state.as_mut().expect("an endpoint was made");
        let Message {
            slot,
            frame,
            challenge,
            own,
            standard,
            room,
        } = message;
        let before = if *slot < SLOTS {
            stage(expected.slot(*slot).stage)
        } else {
            Stage::Free
        };
        let told = ours.message(message, &mut self.ours[..*room]);
        let cookies = model::Cookies { own, standard };
        let out = &mut self.expected[..*room];
        let answer = expected.message(*slot, frame, *challenge, cookies, out);
        let ended = before != Stage::Free && stage(expected.slot(*slot).stage) == Stage::Free;
        let told_expected = match answer {
            Ok(told) => Told::answered(stage(told.stage), told.freed, told.written),
            Err(refusal) => Told::refused(refusal, ended),
        };
        same("the answer", told, told_expected)?;
        if told.stage == Stage::Connected as u32 {
            count_right(if own.is_empty() { standard } else { own }, tally);
        }
        match told.numbers.refusal {
            0 => count(before, told, &self.expected, tally),
            _ => count_refusal(&format!("{before:?}"), told.numbers, flags(frame), tally),
        }
        outputs(&self.ours, &self.expected)
    }

    /// Whole states as bytes; now and then also what a host is shown of them.
    fn compare_states(&mut self) -> Result<(), String> {
        let Some((ours, expected)) = &self.state else {
            return Ok(());
        };
        self.bytes.clear();
        expected.put_bytes(&mut self.bytes);
        states(ours.bytes(), &self.bytes)?;
        if self.calls % 16 != 1 {
            return Ok(());
        }
        same("what it is itself", Some(ours.own()), self.own.clone())?;
        for at in 0..SLOTS {
            let slot = expected.slot(at);
            let slot = Slot {
                stage: stage(slot.stage),
                name: slot.name.to_vec(),
                flags: slot.flags,
                creation: slot.creation,
                challenge: slot.challenge,
            };
            same(&format!("slot {at}"), ours.slot(at), slot)?;
        }
        same("slot 32", ours.slot(32), Slot::default())
    }
}

/// Counts the step from stage to stage, with the status word that was sent.
fn count(before: Stage, told: Told, out: &[u8], tally: &mut Tally) {
    let mut what = format!("{before:?} -> {:?}", Stage::ALL[told.stage as usize]);
    if told.written > 0 && out[2] == b's' {
        let length = usize::from(out[1]);
        what += &format!(", sent {}", out[3..2 + length].escape_ascii());
    }
    if told.freed != SLOTS {
        what += ", another freed";
    }
    tally.count(what);
}

/// Counts a refusal; 9 also by what is wrong with the flags.
fn count_refusal(what: &str, numbers: Numbers, flags: u64, tally: &mut Tally) {
    let what = format!("{what}: refusal {}", numbers.refusal);
    if numbers.refusal == 9 {
        tally.count(format!("{what}, {}", flaw(numbers, flags)));
    }
    tally.count(what);
}

/// The flags of a name or challenge message.
fn flags(frame: &[u8]) -> u64 {
    let field = frame.get(3..11).and_then(|field| field.try_into().ok());
    field.map_or(0, u64::from_be_bytes)
}
