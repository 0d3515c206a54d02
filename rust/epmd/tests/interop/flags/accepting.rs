//! Real nodes that we call.

use birkenschuh::{FlagFlaw, Refusal, REQUIRED_FLAGS};

use super::sets::SETS;
use super::*;

/// A real node takes these flags from us, and its own, told in its challenge, are good here.
fn takes(mapper: &Mapper, ours: &str, flags: u64, told: u64) {
    let mut host = Host::with_flags(mapper, ours, flags);
    host.call("real").expect("a start");
    host.settle();
    assert_eq!(host.story(0), STARTED, "{flags:#x}");
    assert_eq!(host.connected()[0].flags, told, "{flags:#x}");
}

/// A real node says `not_allowed` to these flags, closes, and logs what they lack.
fn declines(mapper: &Mapper, node: &Node, ours: &str, flags: u64) {
    let mut host = Host::with_flags(mapper, ours, flags);
    host.call("real").expect("a start");
    host.settle();
    assert_eq!(host.story(0), ["snot_allowed > refused 16"], "{flags:#x}");
    assert_eq!(status(mapper, host.name(), flags), "not_allowed");
    let attempt = format!("from node '{}' rejected", host.name());
    assert_eq!(cannot_handle(node, &attempt), lacking(flags));
}

/// What it says to a name message of any flags. Where that is not `ok`, nothing else.
fn status(mapper: &Mapper, ours: &str, flags: u64) -> String {
    let mut stream = send(port_of(mapper.port, "real"), &name_message(flags, 7, ours));
    let status = read_frame(&mut stream).expect("a status");
    assert_eq!(status[2], b's');
    let word = text(&status[3..]);
    assert!(word == "ok" || read_frame(&mut stream).is_none(), "{word}");
    word
}

#[test]
#[ignore = "needs erl: make check-interop"]
fn a_real_node_that_is_called_takes_what_the_document_says() {
    let (mapper, node) = real(&[]);
    for (at, set) in SETS.into_iter().enumerate() {
        let ours = format!("c{at}");
        match (set.here, set.called) {
            ("good", "connected") => takes(&mapper, &ours, set.flags, VISIBLE),
            ("good", _) => declines(&mapper, &node, &ours, set.flags),
            (_, word) => {
                let told = status(&mapper, &full_name(&ours), set.flags);
                assert_eq!(told, word, "{:#x}", set.flags);
            }
        }
    }
}

/// Where bit 26 is clear, each of the others is demanded. (No endpoint lacks 2, 8 or 24.)
#[test]
#[ignore = "needs erl: make check-interop"]
fn a_real_node_demands_eleven_flags() {
    let (mapper, mut node) = real(&[]);
    let told = node.eval("{_, _, Mandatory, _, _, _} = erts_internal:get_dflags(), Mandatory.");
    assert_eq!(told, demanded().to_string());
    let mut tried = Vec::new();
    for (bit, _) in DEMANDED {
        let flags = (REQUIRED_FLAGS | demanded()) & !(1 << bit);
        if flags & REQUIRED_FLAGS == REQUIRED_FLAGS {
            declines(&mapper, &node, &format!("n{bit}"), flags);
            tried.push(bit);
        }
    }
    assert_eq!(tried, [4, 7, 9, 10, 11, 16, 17, 18]);
}

#[test]
#[ignore = "needs erl: make check-interop"]
fn a_hidden_node_takes_and_demands_the_same() {
    let (mapper, node) = real(&["-hidden"]);
    takes(&mapper, "y", WITH_26, HIDDEN);
    declines(&mapper, &node, "n", REQUIRED_FLAGS);
}

/// A node without a name of its own asks for one by bit 33. Who gives it one sets the bit too.
#[test]
#[ignore = "needs erl: make check-interop"]
fn a_real_node_answers_bit_33_with_bit_33_which_is_refused_here() {
    let (mapper, _node) = real(&[]);
    let port = port_of(mapper.port, "real");
    let mut stream = send(port, &name_message(NAMELESS, 0, "127.0.0.1"));
    let status = read_frame(&mut stream).expect("a status");
    assert!(status[2..].starts_with(b"snamed:"), "{status:?}");
    let challenge = read_frame(&mut stream).expect("a challenge");
    assert_eq!(challenge[3..11], NAMELESS.to_be_bytes());

    let mut out = [0; ENDPOINT_OUTPUT];
    let mut ours = endpoint();
    let mut after = |frames: [&[u8]; 2]| {
        let slot = ours.start(REAL.as_bytes(), &mut out)?.slot;
        ours.message(slot, frames[0], 0, COOKIES, &mut out)?;
        ours.message(slot, frames[1], 0, COOKIES, &mut out)?;
        Ok::<(), Refusal>(())
    };
    let unknown = after([&status, &challenge]);
    assert_eq!(unknown, Err(Refusal::UnknownStatus));
    let name_me = after([b"\x00\x03sok", &challenge]);
    assert_eq!(name_me, Err(Refusal::BadFlags(FlagFlaw::NameMe)));
}
