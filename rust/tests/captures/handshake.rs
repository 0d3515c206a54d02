//! Messages of the handshake.

use birkenschuh::{Endpoint, Refusal, Refused, Slot, Stage, ENDPOINT_OUTPUT};

use crate::common::frames::{frame, reply, GOOD_FLAGS};
use crate::common::standard;
use crate::exchange::COOKIE;
use crate::flags;
use crate::seen::{all, Seen};

/// A refusal that frees the slot.
pub fn freed<T>(refusal: Refusal) -> Result<T, Refused> {
    Err(Refused {
        refusal,
        slot_freed: true,
    })
}

/// Every name message is read, and its fields recorded; what the papers refuse is refused.
#[test]
fn name_messages_are_read_field_by_field() {
    let (mut read, mut bad_name, mut bad_flags) = (0, 0, 0);
    for seen in all("send_name") {
        let mut endpoint = Endpoint::new(b"acceptor@host", GOOD_FLAGS, 1).unwrap();
        let slot = endpoint.arrive().unwrap();
        let mut out = [0; ENDPOINT_OUTPUT];
        let answer = endpoint.message(slot, &seen.frame, 9, standard(COOKIE), &mut out);
        if !seen.name().contains(&b'@') {
            assert_eq!(answer, freed(Refusal::BadName), "{}", seen.note);
            bad_name += 1;
        } else if let Some(refusal) = flags::refusal(&seen) {
            assert_eq!(answer, freed(refusal), "{}", seen.note);
            bad_flags += 1;
        } else {
            assert_eq!(answer.unwrap().stage, Stage::AwaitsReply, "{}", seen.note);
            assert_eq!(endpoint.slot(slot), recorded(&seen, Stage::AwaitsReply, 9));
            read += 1;
        }
    }
    assert_eq!((read, bad_name, bad_flags), (35, 11, 20));
}

/// What a slot holds once the peer's message is read and our challenge is sent.
pub fn recorded(seen: &Seen, stage: Stage, challenge: u32) -> Slot {
    Slot {
        stage,
        name: seen.name().to_vec(),
        flags: seen.flags(),
        creation: seen.number("creation"),
        challenge,
    }
}

/// Every challenge message is read. The peer's challenge is recorded nowhere: it shows in the
/// digest that is written.
#[test]
fn challenge_messages_are_read_field_by_field() {
    let (mut read, mut refused) = (0, 0);
    for seen in all("send_challenge") {
        let mut out = [0; ENDPOINT_OUTPUT];
        let mut endpoint = Endpoint::new(b"initiator@host", GOOD_FLAGS, 1).unwrap();
        let slot = endpoint.start(seen.name(), &mut out).unwrap().slot;
        endpoint
            .message(slot, b"\x00\x03sok", 0, standard(COOKIE), &mut out)
            .unwrap();
        let answer = endpoint.message(slot, &seen.frame, 9, standard(COOKIE), &mut out);
        if let Some(refusal) = flags::refusal(&seen) {
            assert_eq!(answer, freed(refusal), "{}", seen.note);
            refused += 1;
            continue;
        }
        let digest = model::digest(seen.number("challenge"), COOKIE);
        assert_eq!(out[..answer.unwrap().written], reply(9, digest));
        assert_eq!(endpoint.slot(slot), recorded(&seen, Stage::AwaitsAck, 9));
        read += 1;
    }
    assert_eq!((read, refused), (35, 8));
}

/// Status words of real nodes, as an initiator reads them.
#[test]
fn status_words_are_read() {
    let mut words = Vec::new();
    for seen in all("status") {
        let mut out = [0; ENDPOINT_OUTPUT];
        let mut endpoint = Endpoint::new(b"initiator@host", GOOD_FLAGS, 1).unwrap();
        endpoint.start(b"a@127.0.0.1", &mut out).unwrap();
        let answer = endpoint.message(0, &seen.frame, 0, standard(COOKIE), &mut out);
        let word = seen.note.split(' ').nth(1).unwrap().to_string();
        match word.as_str() {
            "ok" | "ok_simultaneous" => assert_eq!(answer.unwrap().written, 0),
            "alive" => assert_eq!(out[..answer.unwrap().written], frame(b"strue")),
            "nok" | "not_allowed" => assert_eq!(answer, freed(Refusal::Declined)),
            _ => assert_eq!(answer, freed(Refusal::UnknownStatus)),
        }
        words.push(word);
    }
    words.sort();
    words.dedup();
    assert_eq!(
        words,
        [
            "alive",
            "false",
            "maybe",
            "named:",
            "nok",
            "not_allowed",
            "ok",
            "ok_simultaneous",
            "true"
        ]
    );
}
