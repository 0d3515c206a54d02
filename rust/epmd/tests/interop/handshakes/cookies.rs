//! Cookies that are right, wrong, and a peer's own.

use super::*;

/// Both directions, each from the beginning, in the slot behind those that are taken.
fn connect(host: &mut Host, node: &mut Node) {
    let slot = host.taken();
    assert_eq!(host.called_by(node), "true");
    assert_eq!(host.story(slot), ACCEPTED);
    part(host, node);
    assert_eq!(host.call("real"), Ok(slot));
    host.settle();
    assert_eq!(host.story(slot), STARTED);
    peers_become(host, node, OURS_ALONE);
    part(host, node);
}

/// We refuse the node's reply with 15, and the node closes behind ours and logs why.
fn refuse(host: &mut Host, node: &mut Node) {
    let slot = host.taken();
    fail(host, node, "ours", AT_ONCE);
    assert_eq!(host.story(slot), [ACCEPTED[0], "r > refused 15"]);
    let rejections = |node: &Node| {
        let lines = node.process.lines();
        let said = "from node 'ours@127.0.0.1' rejected. Invalid challenge reply";
        lines.iter().filter(|line| line.contains(said)).count()
    };
    let before = rejections(node);
    assert_eq!(host.call("real"), Ok(slot));
    host.settle();
    assert_eq!(host.story(slot), LEFT_BY_CALLED);
    eventually("a line in its log", || rejections(node) == before + 1);
    assert_eq!(host.taken(), slot);
    assert_eq!(host.eval(node, PEERS), NOBODY);
}

/// A cookie of the node's for us, by its characters.
fn set_cookie(node: &mut Node, characters: &[u32]) {
    let set = format!("erlang:set_cookie('ours@127.0.0.1', list_to_atom({characters:?})).");
    assert_eq!(node.eval(&set), "true");
}

/// The same one there and here.
fn share_cookie(host: &mut Host, node: &mut Node, cookie: &[u8]) {
    let characters: Vec<u32> = cookie.iter().copied().map(u32::from).collect();
    set_cookie(node, &characters);
    host.set_cookie("real", cookie);
}

#[test]
#[ignore = "needs erl: make check-interop"]
fn with_another_cookie_nobody_is_connected_and_with_the_right_one_both_are() {
    let (mapper, mut node) = real(&[]);
    let mut host = Host::new(&mapper, "ours");
    let right = std::mem::replace(&mut host.standard, b"other".to_vec());
    refuse(&mut host, &mut node);
    host.standard = right;
    connect(&mut host, &mut node);
}

#[test]
#[ignore = "needs erl: make check-interop"]
fn a_cookie_of_a_peers_own_is_for_that_peer_alone() {
    let (mapper, mut node) = real(&[]);
    let mut host = Host::new(&mapper, "ours");
    host.set_cookie("real", b"special");
    let mut other = Node::start("other", mapper.port);
    assert_eq!(host.called_by(&mut other), "true");
    refuse(&mut host, &mut node);
    share_cookie(&mut host, &mut node, b"special");
    connect(&mut host, &mut node);
    host.set_cookie("real", b"");
    refuse(&mut host, &mut node);
    assert_eq!(host.connected()[0].name, full_name("other"));
    assert_eq!(host.eval(&mut other, PEERS), OURS_ALONE);
}

#[test]
#[ignore = "needs erl: make check-interop"]
fn a_cookie_may_have_any_bytes() {
    let (mapper, mut node) = real(&[]);
    let mut host = Host::new(&mapper, "ours");
    let (first, last): (Vec<u8>, Vec<u8>) = ((0..=254).collect(), (1..=255).collect());
    for cookie in [b"c", &first[..], &last, b"2026", b"monster2026"] {
        share_cookie(&mut host, &mut node, cookie);
        connect(&mut host, &mut node);
    }
}

/// To a node a character is one byte of the digest's text, and one that does not fit ends its side.
#[test]
#[ignore = "needs erl: make check-interop"]
fn a_cookies_bytes_are_latin_1() {
    let (mapper, mut node) = real(&[]);
    let mut host = Host::new(&mapper, "ours");
    share_cookie(&mut host, &mut node, b"gr\xfcn");
    connect(&mut host, &mut node);
    host.set_cookie("real", "grün".as_bytes());
    refuse(&mut host, &mut node);

    set_cookie(&mut node, &[0x100]);
    assert_eq!(host.called_by(&mut node), "false");
    host.settle();
    assert_eq!(host.story(0), LEFT_BY_CALLER);
    node.process.line_with("{badarg,[{erlang,md5,");
    node.process.line_with("[[[256],");
    assert_eq!(host.call("real"), Ok(0));
    host.settle();
    assert_eq!(host.story(0), LEFT_BY_CALLED);
    share_cookie(&mut host, &mut node, b"again");
    connect(&mut host, &mut node);
}
