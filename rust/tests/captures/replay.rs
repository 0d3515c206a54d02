//! The exchanges of the captures, replayed on both sides: an endpoint in the place of one side is lent
//! the messages of the other, and has to send that side's own, byte for byte.

use birkenschuh::{Answered, Cookies, Endpoint, Refusal, Refused, Slot, Stage, ENDPOINT_OUTPUT};

use crate::common::frames::{acknowledgement, reply, status, GOOD_FLAGS};
use crate::common::standard;
use crate::exchange::{exchanges, replied, Exchange, COOKIE};
use crate::handshake::{freed, recorded};
use crate::seen::{Role, Seen};

/// Lends the messages of the other side to a slot, and gives the answers. What each writes is what this
/// side sent next.
fn follow(
    endpoint: &mut Endpoint,
    slot: usize,
    role: Role,
    exchange: &Exchange,
    cookies: Cookies,
) -> Vec<Result<Answered, Refused>> {
    let challenge = exchange.challenge(role).unwrap_or(0);
    let mut messages = exchange.messages.iter().peekable();
    let mut answers = Vec::new();
    while let Some(message) = messages.next() {
        if message.by == role {
            continue;
        }
        let mut expected = Vec::new();
        while let Some(own) = messages.next_if(|next| next.by == role) {
            expected.extend_from_slice(&own.frame);
        }
        let mut out = [0; ENDPOINT_OUTPUT];
        let answer = endpoint.message(slot, &message.frame, challenge, cookies, &mut out);
        let written = answer.map_or(0, |answer| answer.written);
        let (file, note) = (exchange.file, &message.note);
        assert_eq!(out[..written], expected, "{file}, {role:?}: {note}");
        answers.push(answer);
    }
    answers
}

/// A slot on which the name message was sent.
fn started(endpoint: &mut Endpoint, peer: &[u8], name: &Seen) -> usize {
    let mut out = [0; ENDPOINT_OUTPUT];
    let started = endpoint.start(peer, &mut out).unwrap();
    assert_eq!(out[..started.written], name.frame);
    started.slot
}

/// A slot that is connected with the sender of the name message.
fn connected(endpoint: &mut Endpoint, name: &Seen) -> usize {
    let slot = endpoint.arrive().unwrap();
    for frame in [&name.frame, &reply(8, model::digest(9, COOKIE))] {
        let mut out = [0; ENDPOINT_OUTPUT];
        let answer = endpoint.message(slot, frame, 9, standard(COOKIE), &mut out);
        answer.unwrap();
    }
    assert_eq!(endpoint.slot(slot).stage, Stage::Connected);
    slot
}

/// The slot of an arrival, behind what is the cause of the status that was sent.
fn arrived(endpoint: &mut Endpoint, exchange: &Exchange) -> usize {
    let name = exchange.get("send_name");
    match exchange.get("status").note.as_str() {
        "status ok" => (),
        "status alive" => {
            connected(endpoint, name);
        }
        "status ok_simultaneous" => {
            endpoint
                .start(name.name(), &mut [0; ENDPOINT_OUTPUT])
                .unwrap();
        }
        status => panic!("no exchange goes on behind {status}"),
    }
    endpoint.arrive().unwrap()
}

/// One side of an exchange, from the first message to the last: the stage that it came to.
fn replay(role: Role, exchange: &Exchange, cookies: Cookies) -> Result<Stage, Refused> {
    let (name, challenge) = (exchange.get("send_name"), exchange.get("send_challenge"));
    let (own, peer) = match role {
        Role::Initiator => (name, challenge),
        Role::Acceptor => (challenge, name),
    };
    let mut endpoint = own.endpoint().unwrap();
    let slot = match role {
        Role::Initiator => started(&mut endpoint, peer.name(), name),
        Role::Acceptor => arrived(&mut endpoint, exchange),
    };
    let mut answers = follow(&mut endpoint, slot, role, exchange, cookies);
    let answer = answers.pop().expect("a message of the other side");
    let expected = match answer {
        Ok(answer) => recorded(peer, answer.stage, exchange.challenge(role).unwrap()),
        Err(_) => Slot::default(),
    };
    assert_eq!(endpoint.slot(slot), expected, "{}", exchange.file);
    answer.map(|answer| answer.stage)
}

/// Both are connected in the end. Where the initiator has another cookie it sends that very reply, and
/// the acceptor refuses it and frees the slot.
#[test]
fn every_exchange_on_both_sides() {
    let (mut whole, mut with_stand_in) = (0, 0);
    for seen in replied() {
        let exchange = seen.between_endpoints();
        if exchange.messages == seen.messages {
            whole += 1;
        } else {
            with_stand_in += 1;
        }
        let expected = if exchange.is_acknowledged() {
            (Ok(Stage::Connected), Ok(Stage::Connected))
        } else {
            (Ok(Stage::AwaitsAck), freed(Refusal::WrongDigest))
        };
        let initiator = replay(Role::Initiator, &exchange, standard(exchange.cookie()));
        let acceptor = replay(Role::Acceptor, &exchange, standard(COOKIE));
        assert_eq!((initiator, acceptor), expected, "{}", exchange.file);
    }
    println!("{whole} exchanges as they were, {with_stand_in} with a message that stands in");
    assert_eq!((whole, with_stand_in), (28, 15));
}

/// The replies that were refused, with the acknowledgement that they get where their cookie is lent as
/// the peer's own.
#[test]
fn a_reply_of_another_cookie_is_taken_with_that_cookie() {
    let mut cookies = Vec::new();
    for mut exchange in replied() {
        if exchange.is_acknowledged() {
            continue;
        }
        let own = exchange.cookie();
        let challenge = exchange.challenge(Role::Initiator).unwrap();
        exchange.messages.push(Seen {
            by: Role::Acceptor,
            note: "challenge_ack 'a'".to_string(),
            frame: acknowledgement(model::digest(challenge, own)),
        });
        let standard = COOKIE;
        for role in [Role::Initiator, Role::Acceptor] {
            let stage = replay(role, &exchange, Cookies { own, standard });
            assert_eq!(stage, Ok(Stage::Connected), "{}", exchange.file);
        }
        cookies.push(own);
    }
    assert_eq!(cookies, [b"other", b"wrong"]);
}

/// The answers to an arrival.
fn accept(endpoint: &mut Endpoint, exchange: &Exchange) -> Vec<Result<Answered, Refused>> {
    let slot = endpoint.arrive().unwrap();
    follow(endpoint, slot, Role::Acceptor, exchange, standard(COOKIE))
}

fn answered(stage: Stage, freed: Option<usize>, written: usize) -> Answered {
    Answered {
        stage,
        freed,
        written,
    }
}

/// A peer that is connected calls again (hs_11): what it says to `alive` ends nothing but its call.
#[test]
fn the_old_connection_ends_by_the_right_digest_alone() {
    let seen = exchanges("hs_11_alive");
    let [says_false, says_maybe, wrong, _, right] = &seen[..] else {
        panic!("five name messages");
    };
    let mut endpoint = right.get("send_challenge").endpoint().unwrap();
    let old = connected(&mut endpoint, right.get("send_name"));
    let before = endpoint.clone();
    for (exchange, expected) in [
        (says_false, Ok(answered(Stage::Free, None, 0))),
        (says_maybe, freed(Refusal::UnknownStatus)),
        (wrong, freed(Refusal::WrongDigest)),
    ] {
        assert_eq!(accept(&mut endpoint, exchange).last(), Some(&expected));
        assert_eq!(endpoint, before);
    }
    let connected = Ok(answered(Stage::Connected, Some(old), 19));
    assert_eq!(accept(&mut endpoint, right).last(), Some(&connected));
    assert_eq!(endpoint.slot(old), Slot::default());
}

/// A call of a connected peer is asked whether it is alive when the next one comes (hs_11). The real
/// node closes that without a word; 01 has a word for it.
#[test]
fn a_call_behind_one_that_is_asked_is_told_nok() {
    let seen = exchanges("hs_11_alive");
    let [asked, next] = [&seen[2], &seen[3]].map(|call| call.get("send_name"));
    let mut endpoint = Endpoint::new(b"a@127.0.0.1", GOOD_FLAGS, 1).unwrap();
    connected(&mut endpoint, asked);
    let mut out = [0; ENDPOINT_OUTPUT];
    let stages = [asked, next].map(|name| {
        let slot = endpoint.arrive().unwrap();
        let answer = endpoint.message(slot, &name.frame, 0, standard(COOKIE), &mut out);
        answer.unwrap().stage
    });
    assert_eq!(stages, [Stage::AwaitsAlive, Stage::Free]);
    assert!(out.starts_with(&status(b"nok")));
}

/// The name of py is greater than that of a, the real node, and that of A is less (hs_21).
#[test]
fn of_two_calls_at_once_that_of_the_greater_name_goes_on() {
    let seen = exchanges("hs_21_simultaneous_python");
    let [to_py, of_py, to_lesser, of_lesser, goes_on] = &seen[..] else {
        panic!("five name messages");
    };
    let [name, again] = [to_py, to_lesser].map(|call| call.get("send_name"));
    let mut a = name.endpoint().unwrap();
    let call = started(&mut a, b"py@127.0.0.1", name);
    let told = accept(&mut a, of_py);
    assert_eq!(told[0].unwrap().freed, Some(call));
    assert_eq!(told[1], Ok(answered(Stage::Connected, None, 19)));

    let call = started(&mut a, b"A@127.0.0.1", again);
    let nok = Ok(answered(Stage::Free, None, 6));
    assert_eq!(accept(&mut a, of_lesser), [nok]);
    let told = follow(&mut a, call, Role::Initiator, goes_on, standard(COOKIE));
    assert_eq!(told[2], Ok(answered(Stage::Connected, None, 0)));
}

/// At A, whose call is declined before it answers that of a (hs_21).
#[test]
fn of_two_calls_at_once_that_of_the_lesser_name_is_declined() {
    let seen = exchanges("hs_21_simultaneous_python");
    let [.., declined, goes_on] = &seen[..] else {
        panic!("five name messages");
    };
    let name = declined.get("send_name");
    let mut lesser = name.endpoint().unwrap();
    let call = started(&mut lesser, b"a@127.0.0.1", name);
    let told = follow(
        &mut lesser,
        call,
        Role::Initiator,
        declined,
        standard(COOKIE),
    );
    assert_eq!(told, [freed(Refusal::Declined)]);
    let told = accept(&mut lesser, goes_on);
    assert_eq!(told[1], Ok(answered(Stage::Connected, None, 19)));
}
