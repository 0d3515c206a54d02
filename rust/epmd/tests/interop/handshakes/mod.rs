//! Whole handshakes with real nodes, which find a host and are found by it through this mapper.

mod connecting;
mod cookies;
mod digests;
mod refusing;
mod simultaneous;
mod taken;
mod ticks;

use std::ops::Range;
use std::time::Instant;

use birkenschuh::{Refusal, Stage};

use crate::flags::{real, VISIBLE};
use crate::host::*;
use crate::node::{connect_node, full_name, Node};
use crate::support::*;

/// A node's peers: those that count as nodes, and the hidden ones.
const PEERS: &str = "{nodes(), nodes(hidden)}.";
const OURS_ALONE: &str = "{[],['ours@127.0.0.1']}";
const NOBODY: &str = "{[],[]}";

/// A node lists a peer that called it some time behind its acknowledgement, and one that left for
/// some time yet.
fn peers_become(host: &mut Host, node: &mut Node, wanted: &str) {
    eventually(wanted, || host.eval(node, PEERS) == wanted);
}

/// We close, and the node called "real" has seen it.
fn part(host: &mut Host, node: &mut Node) {
    host.close("real");
    peers_become(host, node, NOBODY);
}

/// From here on a node notes who goes down.
const WATCH: &str = "net_kernel:monitor_nodes(true, [{node_type, all}, nodedown_reason]).";
/// Who went down, and why.
const DOWN: &str = "\
    Down = fun Next() -> receive \
        {nodedown, Node, Info} -> [{Node, proplists:get_value(nodedown_reason, Info)} | Next()] \
        after 0 -> [] \
    end end, \
    Down().";

/// Less than a node's patience with a peer that says nothing, or `nok`.
const AT_ONCE: Range<f64> = 0.0..4.0;

/// A node fails to connect to a name, after so many seconds.
fn fail(host: &mut Host, node: &mut Node, name: &str, after: Range<f64>) {
    let start = Instant::now();
    assert_eq!(host.eval(node, &connect_node(&full_name(name))), "false");
    let time = start.elapsed().as_secs_f64();
    assert!(after.contains(&time), "{time}");
}
