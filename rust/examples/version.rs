//! Says whether the library that is linked fits this crate, and then makes the state or the call that
//! is asked for, which would write past what it was lent if it did not.

use birkenschuh::client::{self, Node};
use birkenschuh::{Endpoint, Registry, ENDPOINT_SIZE, REGISTRY_SIZE, REQUIRED_FLAGS};

fn main() {
    match birkenschuh::check() {
        Ok(()) => println!("the library fits"),
        Err(mismatch) => println!("{mismatch}"),
    }
    match std::env::args().nth(1).as_deref() {
        Some("registry") => println!("{:?}", Registry::new(4369, 1)),
        Some("endpoint") => println!("{:?}", Endpoint::new(b"a@b", REQUIRED_FLAGS, 1)),
        Some("stored registry") => println!("{:?}", Registry::from_bytes(&[0; REGISTRY_SIZE])),
        Some("stored endpoint") => println!("{:?}", Endpoint::from_bytes(&[0; ENDPOINT_SIZE])),
        Some("write names") => println!("{:?}", client::names_request(&mut [0; 3])),
        Some("write port_please2") => {
            println!("{:?}", client::port_please2_request(b"n", &mut [0; 4]))
        }
        Some("write alive2") => println!("{:?}", client::alive2_request(&Node::default(), &mut [])),
        Some("read names") => println!("{:?}", client::read_names(&[0; 4])),
        Some("read port2") => println!("{:?}", client::read_port2(&[119, 1])),
        Some("read alive2") => println!("{:?}", client::read_alive2(&[121, 1, 0, 0])),
        _ => (),
    }
}
