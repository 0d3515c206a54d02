//! The numbers of the wrapper are those of the header's constants.

use std::collections::BTreeMap;
use std::fmt::Debug;

use birkenschuh::{Alive2Result, FlagFlaw, Refusal, REQUIRED_FLAGS};

const HEADER: &str = include_str!("../../../include/birkenschuh.h");

/// The header's constants that begin so, with their numbers.
fn constants(prefix: &str) -> BTreeMap<String, u32> {
    let lines = HEADER.lines().map(str::trim);
    let constant = |line: &str| {
        let (name, rest) = line.strip_prefix(prefix)?.split_once(" = ")?;
        let digits = rest.split(|c: char| !c.is_ascii_digit()).next()?;
        Some((name.to_string(), digits.parse().ok()?))
    };
    lines.filter_map(constant).collect()
}

/// `NameInUse` as `NAME_IN_USE`; what a variant carries is left out.
fn in_capitals(variant: impl Debug) -> String {
    let mut capitals = String::new();
    let shown = format!("{variant:?}");
    for letter in shown.chars().take_while(char::is_ascii_alphanumeric) {
        if letter.is_ascii_uppercase() && !capitals.is_empty() {
            capitals.push('_');
        }
        capitals.push(letter.to_ascii_uppercase());
    }
    capitals
}

#[test]
fn refusals() {
    let ours = Refusal::all().map(|refusal| (in_capitals(refusal), refusal.number()));
    let ours: BTreeMap<String, u32> = ours.collect();
    assert_eq!(ours.len(), 18);
    assert_eq!(constants("BKS_REFUSED_"), ours);
}

#[test]
fn results() {
    let ours = Alive2Result::ALL.map(|result| (in_capitals(result), result.number().into()));
    assert_eq!(constants("BKS_RESULT_"), BTreeMap::from(ours));
}

/// The protocol's names, with the numbers that 02 and source document 000 give them.
const DFLAGS: [(&str, u32); 6] = [
    ("EXTENDED_REFERENCES", 2),
    ("EXTENDED_PIDS_PORTS", 8),
    ("HANDSHAKE_23", 24),
    ("UNLINK_ID", 25),
    ("NAME_ME", 33),
    ("V4_NC", 34),
];

#[test]
fn flags() {
    let dflags = BTreeMap::from(DFLAGS.map(|(name, bit)| (name.to_string(), bit)));
    assert_eq!(constants("BKS_DFLAG_"), dflags);
    let ours = FlagFlaw::ALL.map(|flaw| {
        let name = flaw.flag_name().strip_prefix("DFLAG_");
        (name.expect("a flag's name").to_string(), flaw.values().1)
    });
    assert_eq!(BTreeMap::from(ours), dflags);
}

#[test]
fn required_flags() {
    let line = "#define BKS_REQUIRED_FLAGS UINT64_C(0x403000104)";
    assert!(HEADER.lines().any(|it| it == line));
    assert_eq!(REQUIRED_FLAGS, 0x4_0300_0104);
    let bits = DFLAGS.iter().filter(|(name, _)| *name != "NAME_ME");
    let required: u64 = bits.map(|(_, bit)| 1 << bit).sum();
    assert_eq!(REQUIRED_FLAGS, required);
}
