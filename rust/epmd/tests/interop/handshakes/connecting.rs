//! The right cookie: both are connected.

use super::*;
use crate::log::number_in;

/// The creation in the mapper's log.
fn creation_given(mapper: &Mapper, name: &str) -> u32 {
    let registered = format!(" registered name={name} ");
    number_in(&mapper.process.line_with(&registered), "creation")
}

/// What we know of the node, and that it is the node's own.
fn know(host: &Host, mapper: &Mapper, node: &mut Node) {
    let creation = creation_given(mapper, "real");
    assert_eq!(node.number("erts_internal:get_creation()."), creation);
    let peer = Peer {
        name: full_name("real"),
        flags: VISIBLE,
        creation,
    };
    assert_eq!(host.connected(), [peer]);
}

#[test]
#[ignore = "needs erl: make check-interop"]
fn a_real_node_that_calls_is_connected_and_lists_us() {
    let (mapper, mut node) = real(&[]);
    let mut host = Host::new(&mapper, "ours");
    assert_eq!(host.creation(), creation_given(&mapper, "ours"));
    assert_eq!(host.called_by(&mut node), "true");
    assert_eq!(host.story(0), ACCEPTED);
    know(&host, &mapper, &mut node);
    assert_eq!(node.eval(PEERS), OURS_ALONE);
    // With bit 0 we count as a node.
    let mut seen = Host::with_flags(&mapper, "seen", WITH_26 | 1);
    assert_eq!(seen.called_by(&mut node), "true");
    assert_eq!(node.eval(PEERS), "{['seen@127.0.0.1'],['ours@127.0.0.1']}");
}

#[test]
#[ignore = "needs erl: make check-interop"]
fn a_real_node_that_is_called_is_connected_and_lists_us() {
    let (mapper, mut node) = real(&[]);
    let mut host = Host::new(&mapper, "ours");
    assert_eq!(host.call("real"), Ok(0));
    host.settle();
    assert_eq!(host.story(0), STARTED);
    know(&host, &mapper, &mut node);
    peers_become(&mut host, &mut node, OURS_ALONE);
    // Neither side begins again.
    assert_eq!(host.called_by(&mut node), "true");
    assert_eq!(host.call("real"), Err(Refusal::PeerTaken));
    assert_eq!(host.taken(), 1);
    assert_eq!([host.story(0), host.story(1)].concat(), [""; 0]);
}

/// A node has things to say to a visible peer, and does not wait with them.
#[test]
#[ignore = "needs erl: make check-interop"]
fn what_stands_right_behind_the_acknowledgement_is_traffic() {
    const ACKNOWLEDGEMENT: usize = 19;
    let (mapper, mut node) = real(&[]);
    let mut host = Host::with_flags(&mapper, "ours", WITH_26 | 1);
    let slot = host.call("real").expect("a start");
    host.read_until(slot, Stage::AwaitsAck);
    eventually("traffic behind the acknowledgement", || {
        host.waiting(slot) > ACKNOWLEDGEMENT
    });
    host.read(slot);
    assert_eq!(host.story(slot), STARTED);
    assert!(host.traffic.others > 0, "{:?}", host.traffic);
    host.until("both frames", |it| it.traffic.others == 2);
    assert_eq!(host.eval(&mut node, PEERS), "{['ours@127.0.0.1'],[]}");
}
