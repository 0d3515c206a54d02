//! Against Erlang/OTP: real nodes on this mapper, the same requests to it and to the real epmd, a
//! crowd of clients, and handshakes with real nodes. `make check-interop` runs these; a plain `cargo
//! test` does not, since they need `erl` and `epmd`.

#[path = "../support/mod.rs"]
mod support;

mod asking;
mod cases;
mod crowd;
mod differences;
mod flags;
mod handshakes;
mod host;
mod log;
mod node;
mod nodes;
mod raw;
mod restart;
mod results;
mod side_by_side;
