//! Sets of flags, each a row of docs/INTEROP.md.

use std::collections::BTreeSet;

use birkenschuh::Endpoint;

use super::*;

const DOCUMENT: &str = include_str!("../../../../../docs/INTEROP.md");

/// Flags, and what is made of them.
#[derive(Debug, PartialEq, Eq, PartialOrd, Ord)]
pub struct Set {
    pub flags: u64,
    /// By a real node that we call: its status, where that does not lead to a connection.
    pub called: &'static str,
    /// By a real node that calls us: what it does behind our challenge, likewise.
    pub calls: &'static str,
    /// By an endpoint: whether they are good, or what it tells.
    pub here: &'static str,
}

const fn set(flags: u64, called: &'static str, calls: &'static str, here: &'static str) -> Set {
    Set {
        flags,
        called,
        calls,
        here,
    }
}

pub const SETS: [Set; 10] = [
    set(0x4_0300_0104, "not_allowed", "closes", "good"),
    set(WITH_26, "connected", "connected", "good"),
    set(0x4_0700_012c, "connected", "connected", "good"),
    set(0x4_0307_0f94, "connected", "connected", "good"),
    set(VISIBLE, "connected", "connected", "good"),
    set(HIDDEN, "connected", "connected", "good"),
    set(0x14_0300_0104, "not_allowed", "closes", "good"),
    set(0x107_0f94, "ok", "replies", "9: 2 missing, the lowest 25"),
    set(0x400_0000, "ok", "replies", "9: 5 missing, the lowest 2"),
    set(
        0x100_0104,
        "not_allowed",
        "closes",
        "9: 2 missing, the lowest 25",
    ),
];

/// The rows of the document: a cell begins with the word, and says behind it where it was seen.
fn documented() -> BTreeSet<Set> {
    let rows = DOCUMENT.lines().filter(|line| line.starts_with("| 16#"));
    let mut sets = BTreeSet::new();
    for row in rows {
        let cells: Vec<&str> = row.split('|').map(str::trim).collect();
        let [_, flags, _, called, calls, here, _] = cells[..] else {
            panic!("{row}");
        };
        let word = |cell: &'static str| {
            let mut words = cell.split([' ', '*', '`', ':']);
            words.find(|it| !it.is_empty()).expect(row)
        };
        for flags in flags.split(", ") {
            let digits = flags.strip_prefix("16#").expect(row);
            let flags = u64::from_str_radix(digits, 16).expect(row);
            let here = here.split(" (").next().expect(row);
            sets.insert(set(flags, word(called), word(calls), here));
        }
    }
    sets
}

#[test]
fn the_document_has_the_sets_that_are_tried() {
    assert_eq!(documented(), SETS.into_iter().collect());
}

/// Made with them, and told them by a peer.
#[test]
fn the_endpoint_says_what_the_document_says() {
    let text = |told: Result<(), Refusal>| match told {
        Ok(()) => "good".to_string(),
        Err(Refusal::BadFlags(flaw)) => {
            let (missing, lowest) = flaw.values();
            format!("9: {missing} missing, the lowest {lowest}")
        }
        Err(refusal) => refusal.to_string(),
    };
    for set in SETS {
        let made = Endpoint::new(b"ours@127.0.0.1", set.flags, 7);
        assert_eq!(text(made.map(drop)), set.here, "{:#x}", set.flags);
        let told = answer_to(&name_message(set.flags, 7, REAL));
        let told = told.map(drop).map_err(|it| it.refusal);
        assert_eq!(text(told), set.here, "{:#x}", set.flags);
    }
}
