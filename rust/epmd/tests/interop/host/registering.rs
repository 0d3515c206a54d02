//! A host's end of the mapper, by the proved writers and readers.

use std::net::TcpStream;

use birkenschuh::client::*;

use crate::support::{ask, read_exactly, send};

/// Registers a hidden node that listens at `port`. Its name lasts as long as the connection.
pub fn ask_for_name(mapper: u16, name: &str, port: u16) -> (TcpStream, Alive2Reply) {
    let node = Node {
        kind: 72,
        port,
        name: name.as_bytes(),
        ..Node::default()
    };
    let mut request = [0; REQUEST_OUTPUT];
    let length = alive2_request(&node, &mut request).expect("a node's fields");
    let mut stream = send(mapper, &request[..length]);
    let reply = read_alive2(&read_exactly(&mut stream, 6)).expect("a reply to version 6");
    (stream, reply)
}

/// Where the node of a name listens.
pub fn port_of(mapper: u16, name: &str) -> u16 {
    let mut request = [0; REQUEST_OUTPUT];
    let length = port_please2_request(name.as_bytes(), &mut request).expect("a name");
    match read_port2(&ask(mapper, &request[..length])).expect("a reply") {
        Port2Reply::Found(node) => node.port,
        Port2Reply::Failed { result } => panic!("{name}: Result {result}"),
    }
}
