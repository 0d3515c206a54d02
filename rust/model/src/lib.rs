//! The mapper, a node's end of it, and the handshake in plain Rust, written from 01 and 02 (the
//! specification) and from nothing else, so that the proved library can be compared with a second
//! reading of the same text.
//!
//! Names, calls and answers are those of the crate `birkenschuh`.

#![warn(missing_docs)]

mod bytes;
mod client;
mod endpoint;
mod flags;
mod layout;
mod md5;
mod names;
mod refusal;
mod registry;
mod slot;
mod steps;

pub use bytes::Short;
pub use client::{alive2_request, names_request, port_please2_request, Node};
pub use client::{read_alive2, read_port2, Alive2Reply, Port2Reply};
pub use endpoint::{digest, is_full_name, Answered, Cookies, Endpoint, Started, ENDPOINT_OUTPUT};
pub use flags::{test_flags, FlagFlaw};
pub use md5::md5;
pub use names::{read_names, NamesLine, NamesReply};
pub use refusal::Refusal;
pub use registry::{is_node_name, Registration, Registry, REGISTRY_OUTPUT};
pub use slot::{Slot, Stage};
