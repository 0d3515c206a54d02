//! Which flags real nodes send in a handshake and which they take, and what the proved endpoint says
//! of theirs: the rows of docs/INTEROP.md. Where both take each other's, they end connected.

mod accepting;
mod calling;
mod sets;

use birkenschuh::{Answered, Cookies, Endpoint, Refusal, Refused, ENDPOINT_OUTPUT};

use crate::host::*;
use crate::node::{connect_node, full_name, Node, COOKIE};
use crate::raw::*;
use crate::support::*;

const REAL: &str = "real@127.0.0.1";

/// What a real node sends.
pub const VISIBLE: u64 = 0xd_07df_7fbd;
/// What a hidden one sends: without PUBLISHED.
const HIDDEN: u64 = VISIBLE & !1;
/// What a nameless one sends, and what answers it.
const NAMELESS: u64 = HIDDEN | 1 << 33;

const COOKIES: Cookies<'static> = Cookies {
    own: b"",
    standard: COOKIE.as_bytes(),
};

/// What OTP 25 demands where bit 26 is clear, and calls by these names.
const DEMANDED: [(u32, &str); 11] = [
    (2, "EXTENDED_REFERENCES"),
    (4, "FUN_TAGS"),
    (7, "NEW_FUN_TAGS"),
    (8, "EXTENDED_PIDS_PORTS"),
    (9, "EXPORT_PTR_TAG"),
    (10, "BIT_BINARIES"),
    (11, "NEW_FLOATS"),
    (16, "UTF8_ATOMS"),
    (17, "MAP_TAG"),
    (18, "BIG_CREATION"),
    (24, "HANDSHAKE_23"),
];

fn demanded() -> u64 {
    DEMANDED.iter().map(|(bit, _)| 1 << bit).sum()
}

/// The names of the demanded flags that these lack.
fn lacking(flags: u64) -> Vec<String> {
    let lacking = DEMANDED.iter().filter(|(bit, _)| flags >> bit & 1 == 0);
    let mut names: Vec<String> = lacking.map(|(_, name)| name.to_string()).collect();
    names.sort();
    names
}

/// A refusal that frees the slot.
fn freed(refusal: Refusal) -> Refused {
    Refused {
        refusal,
        slot_freed: true,
    }
}

/// A real node on a mapper, called "real".
pub fn real(words: &[&str]) -> (Mapper, Node) {
    let mapper = Mapper::start(&[]);
    let mut node = Node::start_with("real", mapper.port, words);
    let release = node.eval("erlang:system_info(otp_release).");
    assert_eq!(release, "\"25\"", "each release has flags of its own");
    (mapper, node)
}

/// What the peer of a connection attempt cannot handle, by the node's log.
fn cannot_handle(node: &Node, attempt: &str) -> Vec<String> {
    let said = format!("Connection attempt {attempt} since it cannot handle [");
    let list = || {
        let text = node.process.lines().join("\n");
        let (_, rest) = text.split_once(&said)?;
        let (list, _) = rest.split_once("].**")?;
        Some(list.to_string())
    };
    eventually(&said, || list().is_some());
    let list = list().expect("found before");
    let mut names: Vec<String> = list
        .split('"')
        .skip(1)
        .step_by(2)
        .map(str::to_string)
        .collect();
    names.sort();
    names
}

fn endpoint() -> Endpoint {
    Endpoint::new(b"ours@127.0.0.1", WITH_26, 7).expect("good flags")
}

/// What an endpoint makes of a name message.
fn answer_to(name: &[u8]) -> Result<Answered, Refused> {
    let mut endpoint = endpoint();
    let slot = endpoint.arrive().expect("a free slot");
    endpoint.message(slot, name, 2_026, COOKIES, &mut [0; ENDPOINT_OUTPUT])
}
