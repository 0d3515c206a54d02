//! Sequences that go straight to a rule of 01, or to the digest of 02, P4.

use birkenschuh::{Stage, SLOTS};
use model::{digest, md5};

use crate::calls::Call;
use crate::common::frames::*;
use crate::reach::*;

/// All slots taken, by both roles; then a slot in the middle is freed and taken again.
#[test]
fn all_slots() {
    let name = |number: usize| format!("peer{number}@host").into_bytes();
    let mut calls: Vec<Call> = (0..SLOTS)
        .step_by(2)
        .flat_map(|at| [start(&name(at)), Call::Arrive])
        .collect();
    calls.extend([start(&name(99)), Call::Arrive, start(&name(0)), start(OWN)]);
    calls.extend([
        Call::Close { slot: 17 },
        start(&name(99)),
        Call::Close { slot: 31 },
        Call::Arrive,
    ]);
    let tally = run([calls]);
    assert_eq!(tally.times("start: refusal 13"), 2);
    assert_eq!(tally.times("start: refusal 12"), 2 * 2);
    assert_eq!(tally.times("arrive: refusal 13"), 2);
}

/// Both nodes start: the one of the greater name goes on. At each stage of our attempt.
#[test]
fn simultaneous_starts() {
    for (peer, outcome) in [
        (
            PEER,
            "AwaitsName -> AwaitsReply, sent ok_simultaneous, another freed",
        ),
        (LESSER, "AwaitsName -> Free, sent nok"),
    ] {
        let challenge = challenge_message(GOOD_FLAGS, THEIRS, 5, peer);
        let on = [message(0, status(b"ok")), message(0, challenge)];
        let lists = (0..=2).map(|steps| {
            let theirs = [Call::Arrive, message(1, name_message(GOOD_FLAGS, 5, peer))];
            [&[start(peer)], &on[..steps], &theirs].concat()
        });
        assert_eq!(run(lists).times(outcome), 2 * 3);
    }
}

/// A connected peer comes again: the old connection ends by the right digest, and by nothing else.
#[test]
fn alive() {
    let (before, new) = reach(Stage::AwaitsAlive);
    let answer = |word: &[u8]| message(new, status(word));
    let mut wrong = digest(OURS, COOKIE);
    wrong[15] ^= 1;
    let third = [Call::Arrive, message(2, good(Stage::AwaitsName))];
    let lists = [
        vec![answer(b"true"), message(new, good(Stage::AwaitsReply))],
        vec![answer(b"true"), message(new, reply(1, wrong))],
        vec![
            answer(b"true"),
            message(new, reply(1, digest(THEIRS, COOKIE))),
        ],
        vec![answer(b"false")],
        third.to_vec(),
        [vec![answer(b"true")], third.to_vec()].concat(),
    ];
    let tally = run(lists.map(|after| [before.clone(), after].concat()));
    assert_eq!(tally.times("AwaitsReply -> Connected, another freed"), 2);
    assert_eq!(tally.times("AwaitsReply: refusal 15"), 2 * 2);
    assert_eq!(tally.times("AwaitsAlive -> Free"), 2);
    assert_eq!(tally.times("AwaitsName -> Free, sent nok"), 2 * 2);
}

/// Every bit of a digest counts, in reply and acknowledgement.
#[test]
fn digests() {
    for stage in [Stage::AwaitsReply, Stage::AwaitsAck] {
        let turned = (0..128).map(|bit| {
            let mut frame = good(stage);
            let at = frame.len() - 16 + bit / 8;
            frame[at] ^= 1 << (bit % 8);
            frame
        });
        let tally = run(then(stage, turned.chain([good(stage)])));
        assert_eq!(tally.times(&format!("{stage:?}: refusal 15")), 2 * 128);
        assert_eq!(tally.times(&format!("{stage:?} -> Connected")), 2);
    }
}

/// The text that is digested, and others that look like it. Some are the same: a signed number mostly,
/// and the peer's challenge where ours is 0 as well.
fn texts(challenge: u32, cookie: &[u8]) -> [Vec<u8>; 8] {
    let behind = |text: &[u8]| [cookie, text].concat();
    let text = challenge.to_string().into_bytes();
    [
        behind(&text),
        behind((challenge as i32).to_string().as_bytes()),
        behind(THEIRS.to_string().as_bytes()),
        behind(&[b"0", &text[..]].concat()),
        behind(&challenge.to_be_bytes()),
        behind(b""),
        [&text, cookie].concat(),
        text,
    ]
}

/// Calls that lend this challenge and this cookie. The last but one has the digest of the text, and the
/// last finds what that made of the slot.
fn proof(stage: Stage, challenge: u32, cookie: &[u8], text: &[u8]) -> Vec<Call> {
    let frame = match stage {
        Stage::AwaitsReply => reply(THEIRS, md5(text)),
        _ => acknowledgement(md5(text)),
    };
    let (before, slot) = reach(stage);
    let twice = vec![message(slot, frame); 2];
    let lend = |call: &Call| {
        edited(call, |message| {
            (message.challenge, message.standard) = (challenge, cookie.to_vec());
        })
    };
    [before, twice].concat().iter().map(lend).collect()
}

/// The cookie and then the challenge's text, at the borders of both.
#[test]
fn digested_texts() {
    let cookies = [1, 54, 55, 56, 245, 246, 254, 255].map(|length| {
        let mut cookies = [vec![b'c'; length], vec![b'c'; length]];
        (cookies[0][length - 1], cookies[1][0]) = (b'7', 0);
        cookies
    });
    for cookie in cookies.as_flattened() {
        for stage in [Stage::AwaitsReply, Stage::AwaitsAck] {
            let lists = [0, 9, 10, 99, u32::MAX].map(|challenge| {
                let texts = texts(challenge, cookie);
                texts.map(|text| proof(stage, challenge, cookie, &text))
            });
            let tally = run(lists.into_iter().flatten());
            let (right, wrong) = (3 + 2 + 2 + 2 + 1, 5 + 6 + 6 + 6 + 7);
            assert_eq!(tally.times(&format!("{stage:?} -> Connected")), 2 * right);
            assert_eq!(tally.times("Connected: refusal 10"), 2 * right);
            assert_eq!(tally.times(&format!("{stage:?}: refusal 15")), 2 * wrong);
            assert_eq!(tally.times("Free: refusal 2"), 2 * wrong);
        }
    }
}
