//! The mapper ends and comes back: nodes that are up register again by themselves.

use std::sync::Arc;
use std::time::{Duration, Instant};

use crate::log::number_in;
use crate::node::Node;
use crate::support::*;

/// The creations that a mapper gave, by its log.
fn creations(mapper: &Mapper) -> Vec<u32> {
    let lines = mapper.process.lines();
    let given = lines.iter().filter(|line| line.contains(" registered "));
    given.map(|line| number_in(line, "creation")).collect()
}

fn nodes_return_after(signal: &str) -> Duration {
    let mut first = Mapper::start(&[]);
    let port = first.port;
    let mut a = Node::start("a", port);
    let mut b = Node::start("b", port);
    let creation = a.number("erts_internal:get_creation().");
    assert_eq!(b.eval("net_adm:ping('a@127.0.0.1')."), "pong");
    first.process.signal(signal);
    first.process.wait();
    assert_eq!(a.eval("nodes()."), "['b@127.0.0.1']");
    let second = Mapper::with_state(Arc::clone(&first.state), port, &[]);
    let start = Instant::now();
    eventually("both nodes are back", || names(port).len() == 2);
    let time = start.elapsed();
    let mut c = Node::start("c", port);
    assert_eq!(c.eval("net_adm:ping('a@127.0.0.1')."), "pong");
    // A node keeps its creation for life, whatever the reply to its second registration says.
    assert_eq!(a.number("erts_internal:get_creation()."), creation);
    let (before, after) = (creations(&first), creations(&second));
    assert!(
        before.contains(&creation) && after.len() == 3,
        "{before:?} {after:?}"
    );
    assert!(
        after.iter().all(|it| !before.contains(it)),
        "{before:?} {after:?}"
    );
    time
}

#[test]
#[ignore = "needs erl: make check-interop"]
fn nodes_register_again_by_themselves_after_a_restart() {
    let time = nodes_return_after("TERM");
    println!(
        "nodes were back {:.1} s after the restart",
        time.as_secs_f64()
    );
}

#[test]
#[ignore = "needs erl: make check-interop"]
fn nodes_register_again_by_themselves_after_a_crash() {
    let time = nodes_return_after("KILL");
    println!(
        "nodes were back {:.1} s after the crash",
        time.as_secs_f64()
    );
}
