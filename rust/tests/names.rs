//! The name rule where plain bytes are passed many at a time: other bytes put at every place of a plain
//! name, against the independent implementation.

mod common;

use birkenschuh::is_node_name;
use common::names::{BAD, GOOD};
use common::rng::{rounds, seed, Rng};

fn check(name: &[u8]) {
    let expected = model::is_node_name(name);
    assert_eq!(is_node_name(name), expected, "{}", name.escape_ascii());
}

/// A plain name with other bytes in it from an offset on, if they fit.
fn plain_but(length: usize, at: usize, other: &[u8]) -> Option<Vec<u8>> {
    let mut name = vec![b'n'; length];
    name.get_mut(at..at + other.len())?.copy_from_slice(other);
    Some(name)
}

/// Up to some blocks of plain bytes, and up to the longest name: all such names with these bytes in them.
fn plain_names_with(other: &'static [u8]) -> impl Iterator<Item = Vec<u8>> {
    let places = |length| (0..length).map(move |at| (length, at));
    let lengths = (1..=40).chain(240..=255);
    lengths
        .flat_map(places)
        .filter_map(|(length, at)| plain_but(length, at, other))
}

#[test]
fn what_breaks_the_rule_breaks_it_at_every_place() {
    for bad in [b"\0", b"@", b"\x80"] {
        let mut tried = 0;
        for name in plain_names_with(bad) {
            assert!(!is_node_name(&name), "{}", name.escape_ascii());
            check(&name);
            tried += 1;
        }
        assert_eq!(tried, 4_780);
    }
}

#[test]
fn a_two_byte_character_keeps_the_rule_at_every_place() {
    let mut tried = 0;
    for name in plain_names_with("é".as_bytes()) {
        assert!(is_node_name(&name), "{}", name.escape_ascii());
        check(&name);
        tried += 1;
    }
    assert_eq!(tried, 4_780 - 56);
}

/// Characters of every length at the borders of UTF-8, and what lies just beyond these.
#[test]
fn every_border_at_every_place() {
    for other in GOOD.into_iter().chain(BAD) {
        plain_names_with(other).for_each(|name| check(&name));
    }
}

/// What is found at one place must not be forgotten for what is found at another.
#[test]
fn two_others_in_one_name() {
    let others = || GOOD.into_iter().chain(BAD);
    for length in [8, 9, 16, 17, 33, 40] {
        for (at, first) in (0..length).flat_map(|at| others().map(move |other| (at, other))) {
            let Some(name) = plain_but(length, at, first) else {
                continue;
            };
            for behind in at + first.len()..length {
                for second in [&b"\0"[..], b"@", b"\x80", b"\xc3\xa9", b"\xe6\xbc\xa2"] {
                    let mut name = name.clone();
                    if let Some(place) = name.get_mut(behind..behind + second.len()) {
                        place.copy_from_slice(second);
                        check(&name);
                    }
                }
            }
        }
    }
}

/// Plain runs about as long as the steps that pass them, with other bytes between them.
#[test]
fn runs_between_others() {
    const RUNS: [usize; 17] = [0, 0, 1, 2, 6, 7, 8, 9, 15, 16, 17, 23, 24, 25, 31, 32, 33];
    let mut rng = Rng(seed());
    let mut taken = 0;
    for _ in 0..300_000 * rounds() {
        let (mut name, longest) = (Vec::new(), 1 + rng.below(260));
        while name.len() < longest {
            name.resize(name.len() + rng.pick(&RUNS), b'n');
            let other = match rng.below(40) {
                0 => *rng.pick(&BAD),
                _ => *rng.pick(&GOOD),
            };
            name.extend_from_slice(other);
        }
        check(&name);
        taken += u64::from(is_node_name(&name));
    }
    assert!((50_000..250_000).contains(&(taken / rounds())), "{taken}");
}

/// A name is its own bytes: nothing before or behind them in memory is looked at.
#[test]
fn what_lies_around_a_name_is_not_looked_at() {
    for around in [0, b'@', 0x80, 0xc3, b'n'] {
        for length in (1..=40).chain(240..=255) {
            for start in 0..8 {
                let mut space = vec![around; start + length + 40];
                space[start..start + length].fill(b'n');
                assert!(is_node_name(&space[start..start + length]));
                space[start + length - 1] = b'@';
                assert!(!is_node_name(&space[start..start + length]));
            }
        }
    }
}
