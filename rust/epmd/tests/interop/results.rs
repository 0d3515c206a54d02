//! What real nodes make of the Result of their ALIVE2.

use std::io::{Read, Write};
use std::net::{Ipv4Addr, TcpListener, TcpStream};
use std::thread;

use crate::node::Node;
use crate::support::*;

/// What a node says, and the status that it ends with, when it cannot register. Its own name is left
/// out.
fn failure(name: &str, port: u16) -> (String, Option<i32>) {
    let mut node = Node::spawn(name, port, &[]);
    let status = node.process.wait().code();
    let line = node.process.line_with("Protocol 'inet_tcp'");
    (line.replace(&format!("{name}@"), "NAME@"), status)
}

/// The port of a mapper that gives one reply to the first request, and keeps the connection.
fn mapper_that_replies(reply: &[u8]) -> u16 {
    let listener = TcpListener::bind((Ipv4Addr::LOCALHOST, 0)).expect("bind");
    let port = listener.local_addr().expect("address").port();
    let reply = reply.to_vec();
    thread::spawn(move || {
        let (mut stream, _) = listener.accept().expect("a node");
        stream.read_exact(&mut [0; 16]).expect("an ALIVE2 of a");
        stream.write_all(&reply).expect("room");
        let _ = stream.read(&mut [0]);
    });
    port
}

/// Whatever the reason was, they say that the name seems to be in use.
#[test]
#[ignore = "needs erl: make check-interop"]
fn nodes_only_ask_whether_the_result_is_0() {
    let mut node = Node::start("a", mapper_that_replies(&[118, 0, 0, 0, 0, 7]));
    assert_eq!(node.number("erts_internal:get_creation()."), 7);
    let in_use = "the name NAME@127.0.0.1 seems to be in use by another Erlang node";
    let wanted = (format!("Protocol 'inet_tcp': {in_use}"), Some(1));
    for result in [1, 2, 3, 255] {
        let port = mapper_that_replies(&[118, result, 0, 0, 0, 0]);
        assert_eq!(failure("a", port), wanted, "Result {result}");
    }
    // Nor do they read what the real epmd has in place of a creation.
    let port = mapper_that_replies(&[118, 1, 0, 0, 0, 99]);
    assert_eq!(failure("a", port), wanted);
}

#[test]
#[ignore = "needs erl: make check-interop"]
fn the_log_tells_no_place_from_a_name_in_use_where_nodes_do_not() {
    let mapper = Mapper::start(&[]);
    let mut nodes: Vec<TcpStream> = (0..64)
        .map(|at| register(mapper.port, &format!("n{at}"), at).0)
        .collect();
    assert_eq!(failure("n9", mapper.port), failure("late", mapper.port));
    mapper
        .process
        .line_with("not-registered name=n9 result=1 reason=\"the name is registered\" ");
    mapper
        .process
        .line_with("not-registered name=late result=3 reason=\"all 64 places are taken\" ");
    nodes.pop();
    Node::start("late", mapper.port).stop();
}
