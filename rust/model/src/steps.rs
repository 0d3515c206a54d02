//! 01, "Message on a slot, by stage".
//!
//! Each step reads first, and only a step that can no longer be refused writes or records.

use std::cmp::Ordering;

use crate::bytes::{body, Reader, Short, Writer};
use crate::endpoint::{digest, is_full_name};
use crate::{test_flags, Endpoint, Refusal, Stage};

/// The slot's new stage, and another slot that was freed.
type Step = Result<(Stage, Option<usize>), Refusal>;

/// The head of a name message or of a challenge message, as far as both are alike.
struct Peer<'a> {
    flags: u64,
    challenge: u32,
    creation: u32,
    name: &'a [u8],
}

impl<'a> Peer<'a> {
    /// Bytes behind the name are ignored.
    fn read(fields: &'a [u8], with_challenge: bool) -> Result<Peer<'a>, Refusal> {
        let mut fields = Reader(fields);
        let flags = fields.u64()?;
        let challenge = if with_challenge { fields.u32()? } else { 0 };
        let creation = fields.u32()?;
        let name = fields.counted()?;
        Ok(Peer {
            flags,
            challenge,
            creation,
            name,
        })
    }

    /// The name must be what `is_name` takes, and then the flags good.
    fn check(self, is_name: impl Fn(&[u8]) -> bool) -> Result<Peer<'a>, Refusal> {
        if !is_name(self.name) {
            return Err(Refusal::BadName);
        }
        test_flags(self.flags)?;
        Ok(self)
    }
}

fn put_status(word: &[u8], out: &mut Writer) {
    let length = 1 + word.len() as u16;
    out.put(&length.to_be_bytes()).put(b"s").put(word);
}

/// What lies in the body behind the tag, which must be the stage's own.
fn fields(body: &[u8], tag: u8) -> Result<&[u8], Refusal> {
    match body {
        [first, fields @ ..] if *first == tag => Ok(fields),
        _ => Err(Refusal::UnknownTag),
    }
}

impl Endpoint {
    /// The rule of the slot's stage. Does not set the stage itself.
    pub(crate) fn step(
        &mut self,
        at: usize,
        frame: &[u8],
        challenge: u32,
        cookie: &[u8],
        out: &mut Writer,
    ) -> Step {
        let body = body(frame)?;
        match self.slots[at].stage {
            Stage::AwaitsName => self.take_name(at, fields(body, b'N')?, challenge, out),
            Stage::AwaitsAlive => self.take_alive_answer(at, fields(body, b's')?, challenge, out),
            Stage::AwaitsReply => self.take_reply(at, fields(body, b'r')?, cookie, out),
            Stage::AwaitsStatus => take_status(fields(body, b's')?, out),
            Stage::AwaitsChallenge => {
                self.take_challenge(at, fields(body, b'N')?, challenge, cookie, out)
            }
            Stage::AwaitsAck => self.take_acknowledgement(at, fields(body, b'a')?, cookie),
            Stage::Free | Stage::Connected => unreachable!("refused before"),
        }
    }

    fn take_name(&mut self, at: usize, fields: &[u8], challenge: u32, out: &mut Writer) -> Step {
        let peer = Peer::read(fields, false)?.check(is_full_name)?;
        let order = peer.name.cmp(&self.name);
        if order == Ordering::Equal {
            put_status(b"not_allowed", out);
            return Ok((Stage::Free, None));
        }
        // The slot itself has no name yet, so whatever is found is another one.
        let attempt = self.find(peer.name, Stage::is_starting);
        if self.find(peer.name, Stage::is_accepting).is_some()
            || attempt.is_some() && order == Ordering::Less
        {
            put_status(b"nok", out);
            return Ok((Stage::Free, None));
        }
        let connected = self.find(peer.name, |stage| stage == Stage::Connected);
        self.record(at, &peer);
        if let Some(attempt) = attempt {
            self.slots[attempt] = Default::default();
            put_status(b"ok_simultaneous", out);
        } else if connected.is_some() {
            put_status(b"alive", out);
            return Ok((Stage::AwaitsAlive, None));
        } else {
            put_status(b"ok", out);
        }
        self.send_challenge(at, challenge, out);
        Ok((Stage::AwaitsReply, attempt))
    }

    fn take_alive_answer(
        &mut self,
        at: usize,
        word: &[u8],
        challenge: u32,
        out: &mut Writer,
    ) -> Step {
        match word {
            b"true" => {
                self.send_challenge(at, challenge, out);
                Ok((Stage::AwaitsReply, None))
            }
            b"false" => Ok((Stage::Free, None)),
            _ => Err(Refusal::UnknownStatus),
        }
    }

    fn take_reply(&mut self, at: usize, fields: &[u8], cookie: &[u8], out: &mut Writer) -> Step {
        let mut fields = Reader(fields);
        let challenge = fields.u32()?;
        let proof = fields.array()?;
        fields.end()?;
        self.check(at, proof, cookie)?;
        let older = self.find(&self.slots[at].name, |stage| stage == Stage::Connected);
        if let Some(older) = older {
            self.slots[older] = Default::default();
        }
        out.put(&17u16.to_be_bytes())
            .put(b"a")
            .put(&digest(challenge, cookie));
        Ok((Stage::Connected, older))
    }

    fn take_challenge(
        &mut self,
        at: usize,
        fields: &[u8],
        challenge: u32,
        cookie: &[u8],
        out: &mut Writer,
    ) -> Step {
        let expected = self.slots[at].name;
        let peer = Peer::read(fields, true)?.check(|name| *name == *expected)?;
        self.record(at, &peer);
        self.slots[at].challenge = challenge;
        out.put(&21u16.to_be_bytes())
            .put(b"r")
            .put(&challenge.to_be_bytes())
            .put(&digest(peer.challenge, cookie));
        Ok((Stage::AwaitsAck, None))
    }

    fn take_acknowledgement(&self, at: usize, fields: &[u8], cookie: &[u8]) -> Step {
        let mut fields = Reader(fields);
        let proof = fields.array()?;
        fields.end()?;
        self.check(at, proof, cookie)?;
        Ok((Stage::Connected, None))
    }

    /// The slot of a peer whose stage is as asked.
    fn find(&self, name: &[u8], is_wanted: impl Fn(Stage) -> bool) -> Option<usize> {
        let mut slots = self.slots.iter();
        slots.position(|slot| is_wanted(slot.stage) && *slot.name == *name)
    }

    fn record(&mut self, at: usize, peer: &Peer) {
        let slot = &mut self.slots[at];
        slot.name = Short::new(peer.name);
        slot.flags = peer.flags;
        slot.creation = peer.creation;
    }

    fn send_challenge(&mut self, at: usize, challenge: u32, out: &mut Writer) {
        self.slots[at].challenge = challenge;
        self.put_own(Some(challenge), out);
    }

    /// Whether the peer's digest is that of the challenge that this slot sent.
    fn check(&self, at: usize, proof: [u8; 16], cookie: &[u8]) -> Result<(), Refusal> {
        if proof == digest(self.slots[at].challenge, cookie) {
            Ok(())
        } else {
            Err(Refusal::WrongDigest)
        }
    }
}

fn take_status(word: &[u8], out: &mut Writer) -> Step {
    match word {
        b"ok" | b"ok_simultaneous" => (),
        b"alive" => put_status(b"true", out),
        b"nok" | b"not_allowed" => return Err(Refusal::Declined),
        _ => return Err(Refusal::UnknownStatus),
    }
    Ok((Stage::AwaitsChallenge, None))
}
