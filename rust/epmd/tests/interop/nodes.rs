//! Real nodes on this mapper.

use std::process::Command;

use crate::log::number_in;
use crate::node::Node;
use crate::support::*;

#[test]
#[ignore = "needs erl: make check-interop"]
fn real_nodes_register_find_each_other_and_connect() {
    let mapper = Mapper::start(&[]);
    let mut a = Node::start("a", mapper.port);
    let mut b = Node::start("b", mapper.port);
    assert_eq!(b.eval("net_adm:ping('a@127.0.0.1')."), "pong");
    assert_eq!(a.eval("nodes()."), "['b@127.0.0.1']");
    assert_eq!(b.eval("net_adm:ping('nobody@127.0.0.1')."), "pang");
    let said = "rpc:call('a@127.0.0.1', erlang, node, []).";
    assert_eq!(b.eval(said), "'a@127.0.0.1'");
}

#[test]
#[ignore = "needs erl: make check-interop"]
fn net_adm_names_and_epmd_names_list_the_nodes() {
    let mapper = Mapper::start(&[]);
    let mut a = Node::start("a", mapper.port);
    let _b = Node::start("b", mapper.port);
    let [of_a, of_b] = ["a", "b"].map(|name| {
        let registered = format!("registered name={name} ");
        number_in(&mapper.process.line_with(&registered), "port")
    });
    let listed = format!("{{ok,[{{\"a\",{of_a}}},{{\"b\",{of_b}}}]}}");
    assert_eq!(
        a.eval("{ok, L} = net_adm:names(), {ok, lists:sort(L)}."),
        listed
    );
    let mut command = Command::new("epmd");
    command.args(["-port", &mapper.port.to_string(), "-names"]);
    let output = command.output().expect("epmd");
    let wanted = format!(
        "epmd: up and running on port {} with data:\nname a at port {of_a}\nname b at port {of_b}\n",
        mapper.port
    );
    assert_eq!(text(&output.stdout[..]), wanted);
}

#[test]
#[ignore = "needs erl: make check-interop"]
fn a_second_node_of_the_same_name_fails_to_start() {
    let mapper = Mapper::start(&[]);
    let mut first = Node::start("a", mapper.port);
    let mut second = Node::spawn("a", mapper.port, &[]);
    assert!(!second.process.wait().success());
    second.process.line_with("seems to be in use");
    mapper.process.line_with("not-registered name=a result=1 ");
    assert_eq!(names(mapper.port), ["a"]);
    assert_eq!(first.eval("is_alive()."), "true");
}

#[test]
#[ignore = "needs erl: make check-interop"]
fn a_node_that_stops_or_is_killed_is_gone_from_the_list() {
    let mapper = Mapper::start(&[]);
    let mut a = Node::start("a", mapper.port);
    let b = Node::start("b", mapper.port);
    let c = Node::start("c", mapper.port);
    assert_eq!(names(mapper.port), ["a", "b", "c"]);
    b.stop();
    assert_eq!(names(mapper.port), ["a", "c"]);
    c.process.signal("KILL");
    eventually("c is gone", || names(mapper.port) == ["a"]);
    assert_eq!(a.eval("net_adm:ping('b@127.0.0.1')."), "pang");
}

#[test]
#[ignore = "needs erl: make check-interop"]
fn a_name_that_returns_gets_a_new_creation_and_the_node_uses_it() {
    let mapper = Mapper::start(&["--first-creation", "4294967295"]);
    let mut b = Node::start("b", mapper.port);
    assert_eq!(b.number("erts_internal:get_creation()."), u32::MAX);
    for creation in [1, 2] {
        let mut a = Node::start("a", mapper.port);
        assert_eq!(a.number("erts_internal:get_creation()."), creation);
        assert_eq!(b.eval("net_adm:ping('a@127.0.0.1')."), "pong");
        mapper.process.line_with(&format!("creation={creation} "));
        a.stop();
    }
}

#[test]
#[ignore = "needs erl: make check-interop"]
fn a_hidden_node_is_found_and_connects_too() {
    let mapper = Mapper::start(&[]);
    let mut a = Node::start("a", mapper.port);
    let mut hidden = Node::spawn("hidden", mapper.port, &["-hidden"]);
    assert_eq!(hidden.eval("net_adm:ping('a@127.0.0.1')."), "pong");
    assert_eq!(
        a.eval("{nodes(), nodes(hidden)}."),
        "{[],['hidden@127.0.0.1']}"
    );
    assert_eq!(names(mapper.port), ["a", "hidden"]);
}

/// `erl` runs `epmd -daemon` first, unless told not to.
#[test]
#[ignore = "needs erl: make check-interop"]
fn a_node_that_starts_the_real_epmd_uses_this_mapper_if_it_was_first() {
    let mut mapper = Mapper::start(&[]);
    let mut node = Node::spawn_as_usual("a", mapper.port, &[]);
    assert_eq!(node.eval("node()."), "'a@127.0.0.1'");
    mapper.process.line_with("registered name=a ");
    node.stop();
    eventually("a is gone", || names(mapper.port).is_empty());
    assert!(mapper.process.is_running());
}

#[test]
#[ignore = "needs epmd: make check-interop"]
fn where_the_real_epmd_was_first_this_mapper_says_so() {
    let real = RealEpmd::start();
    let output = run(&["--port", &real.port.to_string()]);
    assert_eq!(output.status.code(), Some(1));
    let message = text(&output.stderr[..]);
    assert!(message.contains("Address already in use"), "{message}");
}
