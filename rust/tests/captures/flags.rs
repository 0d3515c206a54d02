//! What is told of the flags of real nodes, and of those that real nodes were tried with.

use birkenschuh::{Endpoint, FlagFlaw, Refusal};

use crate::seen::{all, seen, Seen};
use crate::text;

/// How many required bits are missing and the lowest of them, or 0 and 33; or nothing is wrong.
type Told = Option<(u8, u8)>;

/// The name messages of hs_10 in their order: flags, whether the real node took them, and what is told
/// of them by 02, worked out by hand from their bits.
const HS_10: [(u64, bool, Told); 23] = [
    (0xd_07df_7fbd, true, None),
    (0xd_075f_5fbd, true, None),
    (0x0_0107_0f94, true, Some((2, 25))),
    (0x0_0400_0000, true, Some((5, 2))),
    (0x0_0100_0104, false, Some((2, 25))),
    (0x4_0300_0104, false, None),
    (0x4_0700_0104, true, None),
    (0x0_0000_0000, false, Some((5, 2))),
    (0x0_0400_0004, true, Some((4, 8))),
    (0x0_0107_0f90, false, Some((3, 2))),
    (0x0_0107_0f84, false, Some((2, 25))),
    (0x0_0107_0f14, false, Some((2, 25))),
    (0x0_0107_0e94, false, Some((3, 8))),
    (0x0_0107_0d94, false, Some((2, 25))),
    (0x0_0107_0b94, false, Some((2, 25))),
    (0x0_0107_0794, false, Some((2, 25))),
    (0x0_0106_0f94, false, Some((2, 25))),
    (0x0_0105_0f94, false, Some((2, 25))),
    (0x0_0103_0f94, false, Some((2, 25))),
    (0x0_0007_0f94, false, Some((3, 24))),
    (0xd_07df_7fb9, true, Some((1, 2))),
    (0xd_06df_7fbd, true, Some((1, 24))),
    (0x9_05df_7fbd, true, Some((2, 25))),
];

/// All others that were seen: hidden nodes, doors, and those that ask for a name or give one.
const OTHERS: [(u64, Told); 6] = [
    (0xd_07df_7fbc, None),
    (0xd_075f_5fbc, None),
    (0x4_0700_012c, None),
    (0xf_075f_5fbc, Some((0, 33))),
    (0xf_07df_7fbc, Some((0, 33))),
    (0x6_0700_012c, Some((0, 33))),
];

fn table() -> impl Iterator<Item = (u64, Told)> {
    let hs_10 = HS_10.into_iter().map(|(flags, _, told)| (flags, told));
    hs_10.chain(OTHERS)
}

/// The refusal that the flags of this message come to.
pub fn refusal(seen: &Seen) -> Option<Refusal> {
    let told = table().find(|(flags, _)| *flags == seen.flags());
    let (_, told) = told.unwrap_or_else(|| panic!("not in the table: {}", seen.note));
    told.map(bad_flags)
}

fn bad_flags(told: (u8, u8)) -> Refusal {
    Refusal::BadFlags(match told {
        (0, 33) => FlagFlaw::NameMe,
        (count, lowest) => FlagFlaw::Missing { count, lowest },
    })
}

/// The frames and the real node's verdicts are those of the table, which so has each flag set once.
#[test]
fn the_table_is_that_of_the_captures() {
    let text = text("hs_10_flags_to_acceptor");
    let tried = text.lines().filter(|line| line.starts_with("# -- "));
    let took = tried.map(|line| line.contains(": CONNECTED"));
    let names = seen("hs_10_flags_to_acceptor", "send_name");
    let frames: Vec<(u64, bool)> = names.iter().map(Seen::flags).zip(took).collect();
    assert_eq!(frames, HS_10.map(|(flags, took, _)| (flags, took)));

    let mut in_captures: Vec<u64> = [all("send_name"), all("send_challenge")]
        .iter()
        .flatten()
        .map(Seen::flags)
        .collect();
    in_captures.sort();
    in_captures.dedup();
    let mut in_table: Vec<u64> = table().map(|(flags, _)| flags).collect();
    in_table.sort();
    assert_eq!(in_captures, in_table);
}

/// With which of them an endpoint can be made.
#[test]
fn made_with_the_flags_of_real_nodes() {
    for (flags, told) in table() {
        let made = Endpoint::new(b"door@host", flags, 1);
        match told {
            None => assert_eq!(made.unwrap().own().flags, flags),
            Some(told) => assert_eq!(made.unwrap_err(), bad_flags(told), "{flags:#x}"),
        }
    }
}
