//! A node and we call each other at once: the connection that the greater name started remains.

use std::thread;
use std::time::Duration;

use super::*;

/// The node has called, in slot 0, and its name lies there unread; then we have called, in slot 1.
fn both_call(mapper: &Mapper, node: &mut Node, ours: &str) -> Host {
    let mut host = Host::new(mapper, ours);
    node.begin(&connect_node(host.name()));
    host.let_in();
    assert_eq!(host.call("real"), Ok(1));
    host
}

/// The node's call to us, begun before, has led to the only connection.
fn one_remains(host: &mut Host, node: &mut Node) {
    let connect = connect_node(host.name());
    assert_eq!(host.end_of(node, &connect), "true");
    host.settle();
    assert_eq!(host.taken(), 1);
    let peers = format!("{{[],['{}']}}", host.name());
    assert_eq!(host.eval(node, PEERS), peers);
}

#[test]
#[ignore = "needs erl: make check-interop"]
fn where_the_nodes_name_is_greater_its_call_remains() {
    let (mapper, mut node) = real(&[]);
    // Its name is read before the status of our call.
    let mut host = both_call(&mapper, &mut node, "a");
    host.read_until(0, Stage::AwaitsReply);
    one_remains(&mut host, &mut node);
    let simultaneous = "N > sok_simultaneous N > AwaitsReply, 1 freed";
    assert_eq!(host.story(0), [simultaneous, ACCEPTED[1]]);
    assert!(host.story(1).is_empty());
    part(&mut host, &mut node);
    // Behind it.
    let mut host = both_call(&mapper, &mut node, "b");
    host.read_until(1, Stage::Free);
    one_remains(&mut host, &mut node);
    assert_eq!(host.story(1), ["snok > refused 16"]);
    assert_eq!(host.story(0), ACCEPTED);
}

#[test]
#[ignore = "needs erl: make check-interop"]
fn where_our_name_is_greater_our_call_remains() {
    let (mapper, mut node) = real(&[]);
    let simultaneous = ["sok_simultaneous > AwaitsChallenge", STARTED[1], STARTED[2]];
    // Its name is read before the status of our call.
    let mut host = both_call(&mapper, &mut node, "y");
    host.read_until(0, Stage::Free);
    one_remains(&mut host, &mut node);
    assert_eq!(host.story(0), ["N > snok > Free"]);
    assert_eq!(host.story(1), simultaneous);
    part(&mut host, &mut node);
    // When our call has led to a connection: the node has given up its own.
    let mut host = both_call(&mapper, &mut node, "z");
    host.read_until(1, Stage::Connected);
    one_remains(&mut host, &mut node);
    assert_eq!(host.story(1), simultaneous);
    let given_up = ["N > salive > AwaitsAlive", "AwaitsAlive > end"];
    assert_eq!(host.story(0), given_up);
}

/// Whether the calls crossed. If so, the connection that the greater name started is the one.
fn have_crossed(host: &mut Host) -> bool {
    let story = [host.story(0), host.story(1)].concat();
    let [started, accepted] =
        [STARTED[2], ACCEPTED[1]].map(|it| story.iter().any(|line| line == it));
    assert_ne!(started, accepted, "{story:?}");
    let both = |line: &String| line.contains("simultaneous") || line.contains("nok");
    let crossed = story.iter().any(both);
    if crossed {
        assert_eq!(started, *host.name() > *full_name("real"), "{story:?}");
    }
    crossed
}

/// Both begin at about the same moment, and read what comes as it comes.
fn rounds(mapper: &Mapper, node: &mut Node, ours: &str) {
    const ROUNDS: u32 = 20;
    let mut host = Host::new(mapper, ours);
    let port = port_of(mapper.port, "real");
    let mut crossed = 0;
    for round in 0..ROUNDS {
        node.begin(&connect_node(host.name()));
        thread::sleep(Duration::from_micros(50) * round);
        host.call_at("real", port).expect("a start");
        one_remains(&mut host, node);
        crossed += usize::from(have_crossed(&mut host));
        match round % 2 {
            0 => host.close("real"),
            _ => {
                let leave = format!("erlang:disconnect_node('{}').", host.name());
                assert_eq!(host.eval(node, &leave), "true");
            }
        }
        peers_become(&mut host, node, NOBODY);
        host.until("the end", |it| it.taken() == 0);
    }
    println!("{ours} and real: {crossed} of {ROUNDS} rounds crossed");
}

#[test]
#[ignore = "needs erl: make check-interop"]
fn whatever_the_order_one_connection_remains() {
    let (mapper, mut node) = real(&[]);
    rounds(&mapper, &mut node, "a");
    rounds(&mapper, &mut node, "z");
}
