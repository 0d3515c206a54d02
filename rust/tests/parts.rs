//! The parts below mapper and handshake against outside truths: MD5 against RFC 1321's suite and
//! the model's own, the name rules against the standard library's UTF-8 and the model's, the order
//! of names against that of slices.

mod common;

use birkenschuh::{compare, is_full_name, is_node_name, md5};
use common::rng::{seed, Rng};
use common::to_hex;

#[test]
fn md5_of_the_rfc() {
    let digits = b"1234567890".repeat(8);
    let suite: [(&[u8], &str); 7] = [
        (b"", "d41d8cd98f00b204e9800998ecf8427e"),
        (b"a", "0cc175b9c0f1b6a831c399e269772661"),
        (b"abc", "900150983cd24fb0d6963f7d28e17f72"),
        (b"message digest", "f96b697d7cb7938d525a2f31aaf161d0"),
        (
            b"abcdefghijklmnopqrstuvwxyz",
            "c3fcd3d76192e4007dfb496cca67e13b",
        ),
        (
            b"ABCDEFGHIJKLMNOPQRSTUVWXYZabcdefghijklmnopqrstuvwxyz0123456789",
            "d174ab98d277d9f5a5611c2c9f419d9f",
        ),
        (&digits, "57edf4a22be3c955ac49da2e2107b67a"),
    ];
    for (text, digest) in suite {
        assert_eq!(to_hex(&md5(text)), digest, "{}", text.escape_ascii());
    }
}

/// Every length over several blocks, and some longer texts.
#[test]
fn md5_of_every_length() {
    let mut rng = Rng(seed());
    for length in (0..600).chain([4095, 4096, 65_535, 1 << 20]) {
        let text = rng.bytes(length);
        assert_eq!(md5(&text), model::md5(&text), "{length} bytes");
    }
}

fn is_name(bytes: &[u8]) -> bool {
    let text = std::str::from_utf8(bytes);
    text.is_ok_and(|text| (1..=255).contains(&text.len()) && !text.contains(['\0', '@']))
}

fn check(name: &[u8]) {
    assert_eq!(is_node_name(name), is_name(name), "{}", name.escape_ascii());
}

/// All runs of one, two and three bytes.
#[test]
fn names_of_up_to_three_bytes() {
    check(b"");
    for a in 0..=255 {
        check(&[a]);
        for b in 0..=255 {
            check(&[a, b]);
            for c in 0..=255 {
                check(&[a, b, c]);
            }
        }
    }
}

/// All runs of four bytes whose bytes are at borders of RFC 3629's table; alone, and behind and
/// before other bytes.
#[test]
fn names_of_four_bytes() {
    const BORDERS: [u8; 24] = [
        0x00, 0x01, 0x40, 0x7f, 0x80, 0x8f, 0x90, 0x9f, 0xa0, 0xbf, 0xc0, 0xc1, 0xc2, 0xdf, 0xe0,
        0xe1, 0xec, 0xed, 0xee, 0xef, 0xf0, 0xf3, 0xf4, 0xf5,
    ];
    for a in BORDERS {
        for b in BORDERS {
            for c in BORDERS {
                for d in BORDERS {
                    check(&[a, b, c, d]);
                    check(&[b'n', a, b, c, d]);
                    check(&[a, b, c, d, 0xf4, 0x8f, 0xbf, 0xbf]);
                }
            }
        }
    }
}

/// Lengths around the rule's borders, with a character that the border cuts in two.
#[test]
fn long_names() {
    for length in 250..=260 {
        let plain = vec![b'n'; length];
        check(&plain);
        for character in ["ä", "€", "😀"] {
            let mut name = plain[character.len()..].to_vec();
            name.extend_from_slice(character.as_bytes());
            check(&name);
            check(&name[..length - 1]);
            check(&[character.as_bytes(), &plain[character.len()..]].concat());
        }
    }
    assert!(is_node_name(&[b'n'; 255]) && !is_node_name(&[b'n'; 256]));
}

/// All short runs of a few bytes, and lengths around the rule's borders.
#[test]
fn full_names() {
    let check = |name: &[u8]| {
        let expected = model::is_full_name(name);
        assert_eq!(is_full_name(name), expected, "{}", name.escape_ascii());
    };
    let mut runs = vec![Vec::new()];
    for _ in 0..6 {
        let longer = |run: &Vec<u8>| [0, b'@', 0xff].map(|byte| [&run[..], &[byte]].concat());
        runs = runs.iter().flat_map(longer).collect();
        runs.iter().for_each(|run| check(run));
    }
    for length in 250..=260 {
        for at in [0, 1, length / 2, length - 2, length - 1] {
            let mut name = vec![b'n'; length];
            name[at] = b'@';
            check(&name);
        }
    }
}

/// Pairs of runs that differ early, late, only in length, or not at all.
#[test]
fn order_of_names() {
    let mut rng = Rng(seed());
    for _ in 0..100_000 {
        let mut letters = |length| -> Vec<u8> {
            let bytes = rng.bytes(length);
            bytes
                .iter()
                .map(|byte| [0, 127, 128, 255][usize::from(byte % 4)])
                .collect()
        };
        let (shared, a, b) = (letters(3), letters(2), letters(2));
        for (a, b) in [
            (&a[..], &b[..]),
            (&a[..1], &a[..]),
            (&a[..], &[]),
            (&a[..], &a[..]),
        ] {
            let (a, b) = ([&shared[..], a].concat(), [&shared[..], b].concat());
            assert_eq!(compare(&a, &b), a.cmp(&b), "{a:?} and {b:?}");
        }
    }
}
