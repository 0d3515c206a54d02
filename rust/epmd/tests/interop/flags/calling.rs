//! Real nodes that call us.

use std::io::Write;

use birkenschuh::{FlagFlaw, Refusal};

use super::sets::SETS;
use super::*;

/// The node replies to our challenge, and takes our acknowledgement.
fn is_taken(host: &mut Host, node: &mut Node, connect: &str, told: u64) {
    assert_eq!(host.eval(node, connect), "true");
    assert_eq!(host.story(0), ACCEPTED);
    assert_eq!(host.connected()[0].flags, told);
}

/// The node closes behind our challenge, without a word, and logs what our flags lack.
fn is_left(host: &mut Host, node: &mut Node, flags: u64) {
    assert_eq!(host.called_by(node), "false");
    host.settle();
    assert_eq!(host.story(0), LEFT_BY_CALLER);
    let attempt = format!("to node '{}' aborted", host.name());
    assert_eq!(cannot_handle(node, &attempt), lacking(flags));
}

/// What the node does when a challenge shows it flags that no endpoint can be made with.
fn shown(mapper: &Mapper, node: &mut Node, ours: &str, flags: u64) -> &'static str {
    let (listener, port) = listen();
    let _registration = register(mapper.port, ours, port);
    let ours = full_name(ours);
    node.begin(&connect_node(&ours));
    let mut stream = accept(&listener);
    read_frame(&mut stream).expect("a name message");
    let challenge = challenge_message(flags, 2_026, 7, &ours);
    let frames = [frame(b"sok"), challenge].concat();
    stream.write_all(&frames).expect("send");
    let does = match read_frame(&mut stream) {
        Some(reply) if reply[2] == b'r' => "replies",
        Some(other) => panic!("{other:?}"),
        None => "closes",
    };
    drop(stream);
    assert_eq!(node.end(&connect_node(&ours)), "false");
    does
}

#[test]
#[ignore = "needs erl: make check-interop"]
fn a_real_node_that_calls_takes_what_the_document_says() {
    let (mapper, mut node) = real(&[]);
    for (at, set) in SETS.into_iter().enumerate() {
        let ours = format!("c{at}");
        if set.here != "good" {
            let does = shown(&mapper, &mut node, &ours, set.flags);
            assert_eq!(does, set.calls, "{:#x}", set.flags);
            continue;
        }
        let mut host = Host::with_flags(&mapper, &ours, set.flags);
        let connect = connect_node(host.name());
        match set.calls {
            "connected" => is_taken(&mut host, &mut node, &connect, VISIBLE),
            _ => is_left(&mut host, &mut node, set.flags),
        }
    }
}

#[test]
#[ignore = "needs erl: make check-interop"]
fn a_node_that_calls_in_hiding_lacks_bit_0_alone() {
    let (mapper, mut node) = real(&[]);
    let mut host = Host::new(&mapper, "ours");
    let connect = "net_kernel:hidden_connect_node('ours@127.0.0.1').";
    is_taken(&mut host, &mut node, connect, HIDDEN);
    let mut host = Host::new(&mapper, "other");
    let mut node = Node::start_with("hidden", mapper.port, &["-hidden"]);
    let connect = connect_node(host.name());
    is_taken(&mut host, &mut node, &connect, HIDDEN);
}

/// It sends its host where others have a name: that is told first. Its flags under a full name
/// would be refused too.
#[test]
#[ignore = "needs erl: make check-interop"]
fn a_nameless_node_is_refused_by_its_name_before_its_flags() {
    let mapper = Mapper::start(&[]);
    let mut node = Node::spawn("undefined", mapper.port, &[]);
    assert_eq!(node.eval("node()."), "nonode@nohost");
    let (listener, port) = listen();
    let _registration = register(mapper.port, "raw", port);
    let connect = connect_node("raw@127.0.0.1");
    node.begin(&connect);
    let name = read_frame(&mut accept(&listener)).expect("a name message");
    assert_eq!(name, name_message(NAMELESS, 0, "127.0.0.1"));
    assert_eq!(node.end(&connect), "false");

    let mut host = Host::new(&mapper, "ours");
    assert_eq!(host.called_by(&mut node), "false");
    assert_eq!(host.story(0), ["N > refused 6"]);
    let with_name = answer_to(&name_message(NAMELESS, 0, REAL));
    assert_eq!(with_name, Err(freed(Refusal::BadFlags(FlagFlaw::NameMe))));
}
