//! The name rule beside a check of the same rules byte by byte, the standard library's check of UTF-8 and the
//! independent implementation; and names that are not plain ASCII beside one that is.

use crate::timing::{row, Contender};
use std::hint::black_box;

/// The rule, one byte after the other.
fn by_bytes(name: &[u8]) -> bool {
    let lies = |byte: Option<&u8>, low, high| byte.is_some_and(|&byte| low <= byte && byte <= high);
    let mut bytes = name.iter();
    while let Some(first) = bytes.next() {
        let (low, high, more) = match first {
            0 | b'@' => return false,
            ..=0x7f => continue,
            0xc2..=0xdf => (0x80, 0xbf, 0),
            0xe0 => (0xa0, 0xbf, 1),
            0xed => (0x80, 0x9f, 1),
            0xe1..=0xef => (0x80, 0xbf, 1),
            0xf0 => (0x90, 0xbf, 2),
            0xf1..=0xf3 => (0x80, 0xbf, 2),
            0xf4 => (0x80, 0x8f, 2),
            _ => return false,
        };
        if !lies(bytes.next(), low, high) {
            return false;
        }
        if !(0..more).all(|_| lies(bytes.next(), 0x80, 0xbf)) {
            return false;
        }
    }
    (1..=255).contains(&name.len())
}

/// A plain name of 255 bytes with a character of two at an offset.
fn stray(at: usize) -> Vec<u8> {
    let mut name = vec![b'r'; 253];
    name.splice(at..at, "é".bytes());
    name
}

/// A name of 255 bytes of the same text again and again, and plain bytes behind it.
fn repeated(text: &str) -> Vec<u8> {
    let mut name = text.repeat(255 / text.len()).into_bytes();
    name.resize(255, b'r');
    name
}

/// A name by each check, and beside a plain one.
fn checks(case: &str, name: &[u8], plain: &[u8]) {
    let is_utf8 = |name: &[u8]| std::str::from_utf8(name).is_ok();
    for check in [birkenschuh::is_node_name, by_bytes, is_utf8] {
        assert!(check(name));
    }
    let mut ours = || {
        black_box(birkenschuh::is_node_name(black_box(name)));
    };
    let mut bytes = || {
        black_box(by_bytes(black_box(name)));
    };
    let mut utf8 = || {
        black_box(is_utf8(black_box(name)));
    };
    let mut independent = || {
        black_box(model::is_node_name(black_box(name)));
    };
    let mut beside = || {
        black_box(birkenschuh::is_node_name(black_box(plain)));
    };
    let contender = |name, run| Contender { name, run };
    let mut contenders = vec![
        contender("ours", &mut ours as &mut dyn FnMut()),
        contender("byte by byte", &mut bytes),
        contender("core::str::from_utf8 (UTF-8 alone)", &mut utf8),
        contender("independent implementation", &mut independent),
    ];
    if name != plain {
        contenders.push(contender("ours, 255 plain bytes", &mut beside));
    }
    row(&format!("node name, {case}"), &mut contenders);
}

pub fn names() {
    let plain = vec![b'r'; 255];
    for length in [5, 20, 64, 255] {
        checks(&format!("{length} plain bytes"), &plain[..length], &plain);
    }
    for (place, at) in [
        ("at the start", 0),
        ("in the middle", 126),
        ("at the end", 253),
    ] {
        checks(&format!("a two-byte character {place}"), &stray(at), &plain);
    }
    for (case, text) in [
        ("two-byte characters", "é"),
        ("three-byte characters", "漢"),
        ("four-byte characters", "𝄞"),
        ("plain and two-byte characters in turn", "aé"),
        ("characters of one to four bytes in turn", "aé漢𝄞"),
    ] {
        checks(case, &repeated(text), &plain);
    }
}
