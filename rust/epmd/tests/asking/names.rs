//! `--names`.

use std::process::Output;

use crate::support::text;
use crate::{ask_for, assert_failed, printed};

const UNREADABLE: &str =
    ": the reply is cut short, is none to NAMES, has more than 64 names, or one \
                          that breaks the rule of names";

fn names_of(words: &[&str], reply: &[u8]) -> Output {
    ask_for(&[&["--names"], words].concat(), b"\x00\x01n", reply)
}

/// A reply of port 4369 with this text.
fn reply(text: &str) -> Vec<u8> {
    [b"\x00\x00\x11\x11", text.as_bytes()].concat()
}

/// What is printed, in plain and as JSON, where the reply has one reading.
fn table_and_json(text: &str) -> (String, String) {
    let ask = |words: &[&str]| printed(&names_of(words, &reply(text)));
    (ask(&[]), ask(&["--json"]))
}

/// The same where it has more than one.
fn text_and_json(of: &str) -> (String, String) {
    let ask = |words: &[&str]| {
        let output = names_of(words, &reply(of));
        let said = text(&output.stderr[..]);
        assert!(output.status.success(), "{said}");
        assert_eq!(said.lines().count(), 1, "{said}");
        assert!(said.contains("in more than one way") && said.contains("--port-of NAME"));
        text(&output.stdout[..])
    };
    (ask(&[]), ask(&["--json"]))
}

/// So many names of so many bytes: the text of a reply, and the table of it.
fn many(count: usize, length: usize) -> (String, String) {
    let (mut text, mut table) = (String::new(), format!("{:length$}   PORT\n", "NAME"));
    for at in 0..count {
        let name = format!("{at:0length$}");
        text += &format!("name {name} at port {at}\n");
        table += &format!("{name}  {at:>5}\n");
    }
    (text, table)
}

#[test]
fn no_name_is_a_table_without_lines() {
    let (table, json) = table_and_json("");
    assert_eq!(table, "NAME   PORT\n");
    assert_eq!(json, "{\"port\":4369,\"names\":[]}\n");
}

#[test]
fn names_are_told_apart_where_there_is_one_reading() {
    let (table, json) = table_and_json("name ride at port 4370\n");
    assert_eq!(table, "NAME   PORT\nride   4370\n");
    let names = "[{\"name\":\"ride\",\"port\":4370}]";
    assert_eq!(json, format!("{{\"port\":4369,\"names\":{names}}}\n"));
    // Both in one name would be more than 255 bytes.
    let (text, table) = many(2, 200);
    assert_eq!(table_and_json(&text).0, table);
}

#[test]
fn a_name_cannot_break_a_line_or_hide_another() {
    let (table, json) = table_and_json("name a\nb at port x at port 65535\n");
    let name = "\"a\\nb at port x\"";
    assert_eq!(table, format!("NAME               PORT\n{name}  65535\n"));
    let names = format!("[{{\"name\":{name},\"port\":65535}}]");
    assert_eq!(json, format!("{{\"port\":4369,\"names\":{names}}}\n"));
}

#[test]
fn two_short_names_are_shown_as_they_came() {
    let (text, json) = text_and_json("name a at port 1\nname é at port 22\n");
    assert_eq!(text, "name a at port 1\nname é at port 22\n");
    assert_eq!(
        json,
        "{\"port\":4369,\"ambiguous\":true,\"text\":\"name a at port 1\\nname é at port 22\\n\"}\n"
    );
}

#[test]
fn what_does_not_print_is_escaped() {
    let line = "name \u{1b}[2J\u{85}\u{2028}\u{202e}\r\" at port 1\n";
    let (table, json) = table_and_json(line);
    let shown = "\\u{1b}[2J\\u{85}\\u{2028}\\u{202e}\\r";
    assert!(
        table.ends_with(&format!("\n\"{shown}\\\"\"      1\n")),
        "{table}"
    );
    let json_shown = "\\u001b[2J\\u0085\\u2028\\u202e\\r\\\"";
    let names = format!("[{{\"name\":\"{json_shown}\",\"port\":1}}]");
    assert_eq!(json, format!("{{\"port\":4369,\"names\":{names}}}\n"));

    let (text, json) = text_and_json(&line.repeat(2));
    assert_eq!(text, format!("name {shown}\" at port 1\n").repeat(2));
    let twice = format!("name {json_shown} at port 1\\n").repeat(2);
    assert!(
        json.ends_with(&format!(",\"text\":\"{twice}\"}}\n")),
        "{json}"
    );
}

#[test]
fn the_longest_list_has_64_names_of_255_bytes() {
    let (text, table) = many(64, 255);
    assert_eq!(table_and_json(&text).0, table);
    let (text, _) = many(65, 255);
    assert_failed(&names_of(&[], &reply(&text)), 1, UNREADABLE);
    // 65 lines or more, as the real epmd may have them, are 64 or less with names that hold newlines.
    let (text, _) = many(100, 5);
    assert_eq!(text_and_json(&text).0, text);
}

#[test]
fn a_reply_that_is_cut_gets_one_line_and_status_1() {
    let whole = reply("name ride at port 4370\n");
    for length in (0..whole.len()).filter(|&length| length != 4) {
        let why = match length {
            0 => ": it closed the connection without a reply",
            _ => UNREADABLE,
        };
        assert_failed(&names_of(&[], &whole[..length]), 1, why);
    }
}

#[test]
fn a_wrong_reply_gets_one_line_and_status_1() {
    for wrong in [
        &b"\x00\x01\x00\x00name ride at port 4370\n"[..],
        b"w\x00\x11\x12M\x00\x00\x06\x00\x05\x00\x04ride\x00\x00",
        b"HTTP/1.1 400 Bad Request\r\n\r\n",
    ] {
        assert_failed(&names_of(&[], wrong), 1, UNREADABLE);
        assert_failed(&names_of(&["--json"], wrong), 1, UNREADABLE);
    }
    for wrong in [
        "name ride at port 04370\n",
        "name ride at port 65536\n",
        "name a@b at port 1\n",
        "name  at port 1\nx",
        "active name ride at port 4370, fd = 5\n",
    ] {
        assert_failed(&names_of(&[], &reply(wrong)), 1, UNREADABLE);
    }
}
