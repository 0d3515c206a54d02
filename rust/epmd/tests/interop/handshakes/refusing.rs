//! Where we have no slot, and where a node is not the one that was asked for.

use std::net::TcpStream;

use birkenschuh::SLOTS;

use super::*;

#[test]
#[ignore = "needs erl: make check-interop"]
fn a_node_for_which_there_is_no_slot_fails_to_connect_at_once() {
    let (mapper, mut node) = real(&[]);
    let mut host = Host::new(&mapper, "ours");
    let port = port_of(mapper.port, "ours");
    let crowd: Vec<TcpStream> = (0..SLOTS).map(|_| connect(port)).collect();
    host.until("all slots are taken", |it| it.taken() == SLOTS);
    fail(&mut host, &mut node, "ours", AT_ONCE);
    assert_eq!(host.turned_away, [Refusal::NoFreeSlot]);
    drop(crowd);
    host.until("all slots are free", |it| it.taken() == 0);
    assert_eq!(host.called_by(&mut node), "true");
}

/// Who is called must be who was asked for, here and there.
#[test]
#[ignore = "needs erl: make check-interop"]
fn a_node_that_answers_under_another_name_is_refused() {
    let (mapper, mut node) = real(&[]);
    let mut host = Host::new(&mapper, "ours");
    let port = port_of(mapper.port, "real");
    assert_eq!(host.call_at("other", port), Ok(0));
    host.settle();
    assert_eq!(host.story(0), [STARTED[0], "N > refused 6"]);
    host.register_at(&mapper, "door");
    fail(&mut host, &mut node, "door", AT_ONCE);
    host.settle();
    assert_eq!(host.story(0), LEFT_BY_CALLER);
}
