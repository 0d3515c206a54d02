//! `--names` and `--port-of`, of this mapper and of the real epmd, with real nodes.

use std::net::TcpStream;

use crate::node::Node;
use crate::support::*;

/// Status, what is printed, and what is said beside.
fn ask(port: u16, words: &[&str]) -> (i32, String, String) {
    let output = run(&[&["--port", &port.to_string()], words].concat());
    let status = output.status.code().expect("a status");
    (status, text(&output.stdout[..]), text(&output.stderr[..]))
}

fn printed(port: u16, words: &[&str]) -> String {
    let (status, printed, said) = ask(port, words);
    assert_eq!((status, said.as_str()), (0, ""), "{words:?}");
    printed
}

/// Where a node listens, by Erlang's own client.
fn port_of(node: &mut Node, name: &str) -> u32 {
    node.number(&format!(
        "{{port, P, _}} = erl_epmd:port_please(\"{name}\", {{127,0,0,1}}), P."
    ))
}

/// The lines of a reply that can be read in more than one way, in no order.
fn lines(port: u16) -> Vec<String> {
    let (status, printed, said) = ask(port, &["--names"]);
    assert_eq!((status, said.lines().count()), (0, 1), "{said}");
    assert!(said.contains("in more than one way"), "{said}");
    let mut lines: Vec<String> = printed.lines().map(str::to_string).collect();
    lines.sort();
    lines
}

fn real_nodes_are_found(port: u16) {
    assert_eq!(printed(port, &["--names"]), "NAME   PORT\n");
    let mut a = Node::start("a", port);
    let of_a = port_of(&mut a, "a");
    assert_eq!(
        printed(port, &["--names"]),
        format!("NAME   PORT\na     {of_a:>5}\n")
    );
    assert_eq!(
        printed(port, &["--names", "--json"]),
        format!("{{\"port\":{port},\"names\":[{{\"name\":\"a\",\"port\":{of_a}}}]}}\n")
    );
    let _b = Node::start("b", port);
    let of_b = port_of(&mut a, "b");
    let both = ["a", "b"].map(|name| printed(port, &["--port-of", name]));
    assert_eq!(both, [of_a, of_b].map(|port| format!("{port}\n")));
    let wanted = [("a", of_a), ("b", of_b)];
    assert_eq!(
        lines(port),
        wanted.map(|(name, of)| format!("name {name} at port {of}"))
    );
    for (name, of) in wanted {
        let rest = "\"type\":77,\"protocol\":0,\"highest\":6,\"lowest\":5,\"extra\":\"\"";
        assert_eq!(
            printed(port, &["--json", "--port-of", name]),
            format!("{{\"name\":\"{name}\",\"port\":{of},{rest}}}\n")
        );
    }
    a.stop();
    eventually("a is gone", || names(port) == ["b"]);
    let (status, printed, said) = ask(port, &["--port-of", "a"]);
    assert_eq!((status, printed.as_str()), (1, ""));
    assert!(said.contains("nobody is registered as a "), "{said}");
}

#[test]
#[ignore = "needs erl: make check-interop"]
fn real_nodes_are_found_on_this_mapper() {
    real_nodes_are_found(Mapper::start(&[]).port);
}

#[test]
#[ignore = "needs erl and epmd: make check-interop"]
fn real_nodes_are_found_on_the_real_epmd() {
    let real = RealEpmd::start();
    real_nodes_are_found(real.port);
    // What real nodes do not do: an extra field, and more names than a registry here has places.
    let mut node = send(real.port, &alive2_of(9, 1, 2, 6, 5, b"extra", b"\x00\xff"));
    read_exactly(&mut node, 6);
    assert!(
        printed(real.port, &["--json", "--port-of", "extra"]).ends_with("\"extra\":\"00ff\"}\n")
    );
    drop(node);
    eventually("all are gone", || names(real.port).is_empty());
    let crowd: Vec<TcpStream> = (10..80)
        .map(|at| register(real.port, &format!("n{at}"), at).0)
        .collect();
    let wanted: Vec<String> = (10..80)
        .map(|at| format!("name n{at} at port {at}"))
        .collect();
    assert_eq!(lines(real.port), wanted);
    drop(crowd);
}
