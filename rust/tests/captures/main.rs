//! Frames of real Erlang nodes (OTP 25), as they were seen on the wire: `captures/*.txt`.
//!
//! In these files a line `> hex` went from client to server, `< hex` back, and the comment above a
//! handshake message says what its fields are; that comment is what the endpoint's reading is held
//! against. What an endpoint writes is held against the frames themselves, digests included.

#[path = "../common/mod.rs"]
mod common;

mod client;
mod digest_cases;
mod digests;
mod exchange;
mod flags;
mod handshake;
mod mapper;
mod replay;
mod seen;

/// A file, by its path from the manifest's folder.
fn read(path: &str) -> String {
    let path = format!("{}/{path}", env!("CARGO_MANIFEST_DIR"));
    std::fs::read_to_string(&path).unwrap_or_else(|error| panic!("{path}: {error}"))
}

/// A file of frames.
fn text(file: &str) -> String {
    read(&format!("tests/captures/{file}.txt"))
}
