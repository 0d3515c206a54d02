//! Names that are taken: our own, that of a peer, that of an attempt, and one at the mapper.

use birkenschuh::client::Alive2Reply;

use super::*;
use crate::raw::name_message;

#[test]
#[ignore = "needs erl: make check-interop"]
fn a_node_of_our_own_name_is_not_allowed() {
    let (here, there) = (Mapper::start(&[]), Mapper::start(&[]));
    let mut host = Host::new(&here, "ours");
    host.register_at(&there, "door");
    let mut node = Node::start("ours", there.port);
    fail(&mut host, &mut node, "door", AT_ONCE);
    assert_eq!(host.story(0), ["N > snot_allowed > Free"]);
    assert_eq!(host.taken(), 0);
}

/// And not before: whoever does not know the cookie ends nobody's connection.
#[test]
#[ignore = "needs erl: make check-interop"]
fn a_second_node_of_a_name_takes_over_when_it_has_shown_the_cookie() {
    let here = Mapper::start(&[]);
    let there = Mapper::start(&["--first-creation", "7"]);
    let mut host = Host::new(&here, "ours");
    host.register_at(&there, "ours");
    let mut first = Node::start("twin", here.port);
    let mut second = Node::start("twin", there.port);
    let creations = [&mut first, &mut second].map(|it| it.number("erts_internal:get_creation()."));
    let connected = |host: &Host| -> Vec<u32> {
        let peers = host.connected();
        peers.iter().map(|it| it.creation).collect()
    };
    assert_eq!(first.eval(WATCH), "ok");
    assert_eq!(host.called_by(&mut first), "true");
    assert_eq!(host.story(0), ACCEPTED);

    assert_eq!(second.eval("erlang:set_cookie(other)."), "true");
    assert_eq!(host.called_by(&mut second), "false");
    let asked = ["N > salive > AwaitsAlive", "strue > N > AwaitsReply"];
    assert_eq!(host.story(1), [&asked[..], &["r > refused 15"]].concat());
    assert_eq!(connected(&host), creations[..1]);
    assert_eq!(host.eval(&mut first, PEERS), OURS_ALONE);
    assert_eq!(host.eval(&mut first, DOWN), "[]");

    assert_eq!(second.eval("erlang:set_cookie(monster)."), "true");
    assert_eq!(host.called_by(&mut second), "true");
    let taken_over = "r > a > Connected, 0 freed";
    assert_eq!(host.story(1), [&asked[..], &[taken_over]].concat());
    assert_eq!(connected(&host), creations[1..]);
    assert_eq!(host.taken(), 1);
    peers_become(&mut host, &mut first, NOBODY);
    let down = "[{'ours@127.0.0.1',connection_closed}]";
    assert_eq!(host.eval(&mut first, DOWN), down);
    assert_eq!(host.eval(&mut second, PEERS), OURS_ALONE);
}

/// A node that gets `nok` waits 7 s for the other attempt to succeed.
#[test]
#[ignore = "needs erl: make check-interop"]
fn an_attempt_beside_another_of_its_name_gets_nok() {
    let (mapper, mut node) = real(&[]);
    let mut host = Host::new(&mapper, "ours");
    let name = name_message(VISIBLE, 7, &full_name("real"));
    let attempt = send(port_of(mapper.port, "ours"), &name);
    host.until("a challenge", |it| it.stage(0) == Stage::AwaitsReply);
    fail(&mut host, &mut node, "ours", 6.0..10.0);
    assert_eq!(host.story(1), ["N > snok > Free"]);
    drop(attempt);
    host.settle();
    host.story(0);
    assert_eq!(host.called_by(&mut node), "true");
    assert_eq!(host.story(0), ACCEPTED);
}

#[test]
#[ignore = "needs erl: make check-interop"]
fn at_the_mapper_a_name_is_had_once() {
    let (mapper, mut node) = real(&[]);
    let (_, reply) = ask_for_name(mapper.port, "real", 9);
    let (tag, result) = (118, 1);
    assert_eq!(reply, Alive2Reply::Failed { tag, result });
    let mut host = Host::new(&mapper, "ours");
    let mut second = Node::spawn("ours", mapper.port, &[]);
    assert!(!second.process.wait().success());
    second.process.line_with("seems to be in use");
    assert_eq!(host.called_by(&mut node), "true");
}
