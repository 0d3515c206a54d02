//! `--port-of NAME`.

use std::ffi::OsStr;
use std::os::unix::ffi::OsStrExt;
use std::process::Output;

use crate::support::{birken_epmd, free_port, outcome, run};
use crate::{ask_for, assert_failed, printed};

const RIDE: &[u8] = b"w\x00\x11\x12M\x00\x00\x06\x00\x05\x00\x04ride\x00\x00";

fn port_of_ride(words: &[&str], reply: &[u8]) -> Output {
    let words = [&["--port-of", "ride"], words].concat();
    ask_for(&words, b"\x00\x05zride", reply)
}

#[test]
fn the_port_alone_is_printed() {
    assert_eq!(printed(&port_of_ride(&[], RIDE)), "4370\n");
    let output = ask_for(&["--port-of=é\n"], "\x00\x04zé\n".as_bytes(), b"w\x01");
    assert!(!output.status.success());
}

#[test]
fn json_tells_all_of_the_node() {
    assert_eq!(
        printed(&port_of_ride(&["--json"], RIDE)),
        "{\"name\":\"ride\",\"port\":4370,\"type\":77,\"protocol\":0,\"highest\":6,\"lowest\":5,\
         \"extra\":\"\"}\n"
    );
    let other = b"w\x00\xff\xffH\x03\x00\x04\x00\x09\x00\x04ride\x00\x03\x00\xff\n";
    assert_eq!(
        printed(&port_of_ride(&["--json"], other)),
        "{\"name\":\"ride\",\"port\":65535,\"type\":72,\"protocol\":3,\"highest\":4,\"lowest\":9,\
         \"extra\":\"00ff0a\"}\n"
    );
    assert_eq!(printed(&port_of_ride(&[], other)), "65535\n");
}

#[test]
fn a_name_that_nobody_has_gets_one_line_and_status_1() {
    for result in [1, 9, 255] {
        for words in [&[][..], &["--json"]] {
            let output = port_of_ride(words, &[119, result]);
            assert_failed(&output, 1, &format!(" (Result {result})"));
            let said = String::from_utf8_lossy(&output.stderr);
            assert!(said.contains("nobody is registered as ride at 127.0.0.1 port "));
        }
    }
}

#[test]
fn what_is_no_name_is_a_bad_option() {
    let port = free_port().to_string();
    for name in ["", "ride@host", "@", &"u".repeat(256)] {
        let output = run(&["--port", &port, "--port-of", name]);
        assert_failed(&output, 2, &format!("not {name:?}"));
    }
    let mut command = birken_epmd();
    command.args(["--port", &port, "--port-of"]);
    let output = outcome(command.arg(OsStr::from_bytes(b"\xff")));
    assert_failed(&output, 2, "is not UTF-8");
}

#[test]
fn the_longest_name_is_asked_for() {
    let name = "u".repeat(255);
    let request = [b"\x01\x00z", name.as_bytes()].concat();
    let head = b"w\x00\x11\x12M\x00\x00\x06\x00\x05\x00\xff";
    let reply = [&head[..], name.as_bytes(), b"\x00\x00"].concat();
    let output = ask_for(&["--port-of", &name], &request, &reply);
    assert_eq!(printed(&output), "4370\n");
}

#[test]
fn a_reply_that_is_cut_or_too_long_gets_one_line_and_status_1() {
    const UNREADABLE: &str = ": the reply is cut short, or has bytes behind its end";
    for length in 0..RIDE.len() {
        let why = match length {
            0 => ": it closed the connection without a reply",
            _ => UNREADABLE,
        };
        assert_failed(&port_of_ride(&[], &RIDE[..length]), 1, why);
    }
    let behind = [RIDE, b"\x00"].concat();
    assert_failed(&port_of_ride(&["--json"], &behind), 1, UNREADABLE);
    assert_failed(&port_of_ride(&[], b"w\x01\x00"), 1, UNREADABLE);
}

#[test]
fn a_reply_of_another_kind_gets_one_line_and_status_1() {
    for wrong in [&b"v\x00\x00\x00\x00\x04"[..], b"v"] {
        let why = ": the reply begins with 118, not with 119";
        assert_failed(&port_of_ride(&[], wrong), 1, why);
    }
}

#[test]
fn a_reply_about_another_node_is_not_taken() {
    let mut other = RIDE.to_vec();
    other[12] = b'\n';
    let output = port_of_ride(&[], &other);
    assert_failed(&output, 1, ": the reply is about \"\\nide\"");
}
