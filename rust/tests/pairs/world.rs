//! Two endpoints, their hosts, and the connections between them, with every packet under control.

use birkenschuh::{Answered, Endpoint, Refusal, Slot, Stage, ENDPOINT_OUTPUT, SLOTS};

use crate::common::frames::{mend_length, GOOD_FLAGS};
use crate::common::standard;
use crate::common::tally::Tally;
use crate::links::{Action, At, Fault, Left, Link, Packet};

pub const NAMES: [&[u8]; 2] = [b"a@host", b"b@host"];
/// Each side's own, so that a mix-up shows.
const FLAGS: [u64; 2] = [GOOD_FLAGS, GOOD_FLAGS | 1];
const CREATIONS: [u32; 2] = [7, 8];
const PATTERN: u8 = 0xa5;

#[derive(Clone)]
pub struct World {
    pub ends: [Endpoint; 2],
    pub links: Vec<Link>,
    pub left: Left,
    cookies: [&'static [u8]; 2],
}

impl World {
    pub fn new(left: Left, cookies: [&'static [u8]; 2]) -> World {
        let end = |side: usize| Endpoint::new(NAMES[side], FLAGS[side], CREATIONS[side]).unwrap();
        World {
            ends: [end(0), end(1)],
            links: Vec::new(),
            left,
            cookies,
        }
    }

    /// All that can happen next.
    pub fn actions(&self) -> Vec<Action> {
        let starts = (0..2).filter(|side| self.left.starts[*side] > 0);
        let mut actions: Vec<Action> = starts.map(|side| Action::Start { side }).collect();
        for (link, on) in self.links.iter().enumerate() {
            for side in 0..2 {
                match on.at[side] {
                    At::Coming => actions.push(Action::Arrive { link }),
                    At::Slot(_) => self.actions_at(link, side, &mut actions),
                    At::Gone => (),
                }
            }
        }
        actions
    }

    fn actions_at(&self, link: usize, side: usize, actions: &mut Vec<Action>) {
        if self.left.closes > 0 {
            actions.push(Action::Close { link, side });
        }
        let mut deliver = |fault| actions.push(Action::Deliver { link, side, fault });
        match self.links[link].to[side].front() {
            None => (),
            Some(Packet::End) => deliver(Fault::None),
            Some(Packet::Frame(_)) => {
                deliver(Fault::None);
                if self.left.cuts > 0 {
                    deliver(Fault::Cut);
                    deliver(Fault::MendedCut);
                }
                if self.left.wrong_cookies > 0 {
                    deliver(Fault::WrongCookie);
                }
            }
        }
    }

    pub fn act(&mut self, action: Action, tally: &mut Tally) {
        match action {
            Action::Start { side } => self.start(side, tally),
            Action::Arrive { link } => {
                let side = 1 - self.links[link].starter;
                let slot = self.ends[side].arrive().expect("there are slots enough");
                self.links[link].at[side] = At::Slot(slot);
            }
            Action::Close { link, side } => {
                self.left.closes -= 1;
                self.close(link, side);
                self.leave(link, side);
            }
            Action::Deliver { link, side, fault } => {
                match self.links[link].to[side]
                    .pop_front()
                    .expect("a packet to deliver")
                {
                    Packet::End => {
                        self.close(link, side);
                        self.links[link].at[side] = At::Gone;
                    }
                    Packet::Frame(frame) => self.deliver(link, side, frame, fault, tally),
                }
            }
        }
    }

    fn start(&mut self, side: usize, tally: &mut Tally) {
        self.left.starts[side] -= 1;
        let mut out = [PATTERN; ENDPOINT_OUTPUT];
        match self.ends[side].start(NAMES[1 - side], &mut out) {
            Ok(started) => {
                let mut at = [At::Coming; 2];
                at[side] = At::Slot(started.slot);
                self.links.push(Link {
                    starter: side,
                    at,
                    to: Default::default(),
                });
                self.send(self.links.len() - 1, side, &out, started.written, tally);
            }
            Err(refusal) => {
                assert_eq!(refusal, Refusal::PeerTaken);
                assert_eq!(
                    out, [PATTERN; ENDPOINT_OUTPUT],
                    "a refused call writes nothing"
                );
                tally.count("start refused: the peer has a slot");
            }
        }
    }

    fn deliver(
        &mut self,
        link: usize,
        side: usize,
        frame: Vec<u8>,
        fault: Fault,
        tally: &mut Tally,
    ) {
        let (frame, cookie) = self.with_fault(side, frame, fault);
        let slot = self.slot_of(link, side);
        let before = self.ends[side].slot(slot);
        let challenge = (100 * link + side) as u32;
        let mut out = [PATTERN; ENDPOINT_OUTPUT];
        match self.ends[side].message(slot, &frame, challenge, standard(cookie), &mut out) {
            Ok(answer) => {
                tally.count(format!("{:?} -> {:?}", before.stage, answer.stage));
                assert!(!fault.is_cut(), "a cut frame is refused");
                let is_proved = frame.ends_with(&model::digest(before.challenge, cookie));
                assert!(
                    is_proved || answer.stage != Stage::Connected,
                    "a wrong digest"
                );
                self.send(link, side, &out, answer.written, tally);
                self.leave_freed(link, side, answer);
            }
            Err(refused) => {
                let number = refused.refusal.number();
                tally.count(format!("{:?}: refusal {number}", before.stage));
                assert!(refused.slot_freed);
                assert_eq!(
                    out, [PATTERN; ENDPOINT_OUTPUT],
                    "a refused call writes nothing"
                );
                assert_eq!(
                    self.ends[side].slot(slot),
                    Slot::default(),
                    "it frees the slot"
                );
                self.leave(link, side);
            }
        }
    }

    /// The frame as it arrives, and the cookie that the host lends.
    fn with_fault(
        &mut self,
        side: usize,
        mut frame: Vec<u8>,
        fault: Fault,
    ) -> (Vec<u8>, &'static [u8]) {
        if fault == Fault::WrongCookie {
            self.left.wrong_cookies -= 1;
            return (frame, b"wrong");
        }
        if fault.is_cut() {
            self.left.cuts -= 1;
            frame.pop();
        }
        if fault == Fault::MendedCut {
            mend_length(&mut frame);
        }
        (frame, self.cookies[side])
    }

    /// Closes the connections whose slots an answer has freed.
    fn leave_freed(&mut self, link: usize, side: usize, answer: Answered) {
        let slot = self.slot_of(link, side);
        assert_eq!(self.ends[side].slot(slot).stage, answer.stage);
        if answer.stage == Stage::Free {
            self.leave(link, side);
        }
        if let Some(freed) = answer.freed {
            let is_there = |other: &Link| other.at[side] == At::Slot(freed);
            let other = self.links.iter().position(is_there);
            self.leave(other.expect("a freed slot was taken"), side);
        }
    }

    /// Puts the frames of an output on their way.
    fn send(&mut self, link: usize, side: usize, out: &[u8], written: usize, tally: &mut Tally) {
        let (mut frames, rest) = out.split_at(written);
        assert!(
            rest.iter().all(|byte| *byte == PATTERN),
            "a stray byte behind the output"
        );
        while let Some((length, body)) = frames.split_first_chunk() {
            let length = usize::from(u16::from_be_bytes(*length));
            let (frame, behind) = frames.split_at(2 + length);
            if let [b's', word @ ..] = &body[..length] {
                tally.count(format!("sent {}", word.escape_ascii()));
            }
            if self.links[link].at[1 - side] != At::Gone {
                self.links[link].to[1 - side].push_back(Packet::Frame(frame.to_vec()));
            }
            frames = behind;
        }
    }

    fn slot_of(&self, link: usize, side: usize) -> usize {
        match self.links[link].at[side] {
            At::Slot(slot) => slot,
            at => panic!("nothing happens to a connection that is {at:?}"),
        }
    }

    fn close(&mut self, link: usize, side: usize) {
        let slot = self.slot_of(link, side);
        self.ends[side].close(slot).expect("the slot is taken");
        assert_eq!(self.ends[side].slot(slot), Slot::default());
    }

    /// The host closes its end of a connection whose slot is free.
    fn leave(&mut self, link: usize, side: usize) {
        let link = &mut self.links[link];
        link.at[side] = At::Gone;
        link.to[side].clear();
        if link.at[1 - side] != At::Gone {
            link.to[1 - side].push_back(Packet::End);
        }
    }

    /// What each side has recorded, with the slot's number; free slots are left out.
    pub fn taken(&self, side: usize) -> Vec<(usize, Slot)> {
        let slots = (0..SLOTS).map(|at| (at, self.ends[side].slot(at)));
        slots.filter(|(_, slot)| *slot != Slot::default()).collect()
    }

    /// The record that a connected slot must have of the other side.
    pub fn is_record_of(&self, side: usize, slot: &Slot) -> bool {
        (slot.name.as_slice(), slot.flags, slot.creation)
            == (NAMES[side], FLAGS[side], CREATIONS[side])
    }
}
