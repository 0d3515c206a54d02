//! 02, P3: what each set of flags comes to, in making, in a name message and in a challenge.

use birkenschuh::Stage;

use crate::calls::Call;
use crate::common::frames::*;
use crate::common::rng::{seed, Rng};
use crate::common::tally::Tally;
use crate::fields::{flags_without, required_sets};
use crate::reach::*;

/// The calls that give 9.
const REFUSING: [&str; 4] = ["new, raw", "new, safe", "AwaitsName", "AwaitsChallenge"];

/// How many are missing and the lowest, and how many sets of required bits come to that.
const MISSING: [(u32, u32, u64); 15] = [
    (1, 2, 1),
    (2, 2, 4),
    (3, 2, 6),
    (4, 2, 4),
    (5, 2, 1),
    (1, 8, 1),
    (2, 8, 3),
    (3, 8, 3),
    (4, 8, 1),
    (1, 24, 1),
    (2, 24, 2),
    (3, 24, 1),
    (1, 25, 1),
    (2, 25, 1),
    (1, 34, 1),
];

/// The cases of the request: flags, and what is told of them.
const REFUSED: [(u64, &str); 16] = [
    (0x4_0300_0100, "1 missing, lowest 2"),
    (0x4_0300_0004, "1 missing, lowest 8"),
    (0x4_0200_0104, "1 missing, lowest 24"),
    (0x4_0100_0104, "1 missing, lowest 25"),
    (0x0_0300_0104, "1 missing, lowest 34"),
    (0x0_0000_0000, "5 missing, lowest 2"),
    (0xffff_fff9_fcff_fefb, "5 missing, lowest 2"),
    (0xffff_fffb_fcff_fefb, "5 missing, lowest 2, bit 33 set"),
    (0x6_0300_0104, "bit 33"),
    (0xffff_ffff_ffff_ffff, "bit 33"),
    (0x2_0300_0104, "1 missing, lowest 34, bit 33 set"),
    (0x6_0300_0100, "1 missing, lowest 2, bit 33 set"),
    // What 01 required, and what a real acceptor does.
    (0x0_0100_0104, "2 missing, lowest 25"),
    (0x0_0107_0f94, "2 missing, lowest 25"),
    (0x0_0400_0000, "5 missing, lowest 2"),
    (0x4_0000_0104, "2 missing, lowest 24"),
];

/// All the flaws that are told, as they are counted, each behind the count of its call's refusals.
pub fn flaws() -> Vec<(String, String)> {
    let missing = MISSING.map(|(missing, lowest, _)| format!("{missing} missing, lowest {lowest}"));
    let with_33 = missing.clone().map(|flaw| flaw + ", bit 33 set");
    let each = missing.into_iter().chain(with_33).chain(["bit 33".into()]);
    let each: Vec<String> = each.collect();
    let of = |call| {
        let refusals = format!("{call}: refusal 9");
        let flaw = move |flaw: &String| (refusals.clone(), format!("{refusals}, {flaw}"));
        each.iter().map(flaw).collect::<Vec<_>>()
    };
    REFUSING.into_iter().flat_map(of).collect()
}

fn making(raw: bool, flags: u64) -> Vec<Call> {
    vec![Call::New {
        raw,
        name: OWN.to_vec(),
        flags,
        creation: 1,
    }]
}

/// Each of these flags in each call that tests them, through both faces.
fn run_all(flags: &[u64]) -> Tally {
    let each = || flags.iter().copied();
    let names = each().map(|flags| name_message(flags, 1, PEER));
    let challenges = each().map(|flags| challenge_message(flags, 1, 1, PEER));
    let mut tally = run(then(Stage::AwaitsName, names));
    tally.add(run(then(Stage::AwaitsChallenge, challenges)));
    for raw in [false, true] {
        tally.add(run(each().map(|flags| making(raw, flags))));
    }
    tally
}

#[test]
fn refused_by_hand() {
    for (flags, flaw) in REFUSED {
        let tally = run_all(&[flags]);
        for call in REFUSING {
            let told = tally.times(&format!("{call}: refusal 9, {flaw}"));
            assert_eq!(told, 2, "{call}: {flags:#x} is not told as {flaw}");
        }
    }
}

/// Neither the bits above 34 nor any other bit but 33 counts.
#[test]
fn taken_by_hand() {
    let each = (0..64).map(|bit| GOOD_FLAGS | 1 << bit);
    let free: Vec<u64> = each.filter(|flags| *flags != 0x6_0300_0104).collect();
    let more = [
        0x4_0300_0104,
        0x4_0700_0104,
        0xd_07df_7fbd,
        0xffff_fff8_0000_0000 | GOOD_FLAGS,
        0xffff_fffd_ffff_ffff,
    ];
    let all = [&free[..], &more].concat();
    assert_eq!(all.len(), 68);
    let tally = run_all(&all);
    for call in REFUSING {
        assert_eq!(tally.times(&format!("{call}: refusal 9")), 0, "{call}");
    }
    assert_eq!(tally.times("AwaitsName -> AwaitsReply, sent ok"), 2 * 68);
    assert_eq!(tally.times("AwaitsChallenge -> AwaitsAck"), 2 * 68);
}

/// Every set of required bits missing, with bit 33 and without, with none, all and some of the others.
#[test]
fn every_set_of_required_bits() {
    let mut rng = Rng(seed());
    let mut flags = Vec::new();
    for missing in required_sets() {
        for name_me in [false, true] {
            let others = [0, !0, rng.next(), rng.next(), rng.next()];
            flags.extend(others.map(|others| flags_without(&missing, name_me, others)));
        }
    }
    assert_eq!(flags.len(), 32 * 2 * 5);
    let tally = run_all(&flags);
    for call in REFUSING {
        let times = |flaw: &str| tally.times(&format!("{call}: refusal 9, {flaw}"));
        for (missing, lowest, sets) in MISSING {
            let flaw = format!("{missing} missing, lowest {lowest}");
            let with_33 = format!("{flaw}, bit 33 set");
            let told = (times(&flaw), times(&with_33));
            assert_eq!(told, (2 * 5 * sets, 2 * 5 * sets), "{call}: {flaw}");
        }
        assert_eq!(times("bit 33"), 2 * 5, "{call}");
        assert_eq!(tally.times(&format!("{call}: refusal 9")), 2 * 5 * 63);
    }
}

/// Each required bit cleared, and each other bit set, alone.
#[test]
fn every_bit() {
    let each: Vec<u64> = (0..64).map(|bit| GOOD_FLAGS ^ (1 << bit)).collect();
    let tally = run_all(&each);
    for call in REFUSING {
        assert_eq!(tally.times(&format!("{call}: refusal 9")), 2 * 6, "{call}");
    }
}

/// A bad name is told before bad flags, and a length that disagrees before both.
#[test]
fn told_behind_length_and_name() {
    for flags in [0, 0x6_0300_0104] {
        let names = [name_message(flags, 1, b"n"), name_message(flags, 1, b"")];
        let tally = run(then(Stage::AwaitsName, names));
        assert_eq!(tally.times("AwaitsName: refusal 6"), 2 * 2);
        let other = challenge_message(flags, 1, 1, LESSER);
        let tally = run(then(Stage::AwaitsChallenge, [other]));
        assert_eq!(tally.times("AwaitsChallenge: refusal 6"), 2);
        let whole = name_message(flags, 1, PEER);
        let cut = frame(&whole[2..whole.len() - 1]);
        let tally = run(then(Stage::AwaitsName, [cut]));
        assert_eq!(tally.times("AwaitsName: refusal 5"), 2);
        let made = Call::New {
            raw: true,
            name: b"ab".to_vec(),
            flags,
            creation: 1,
        };
        assert_eq!(run([vec![made]]).times("new, raw: refusal 6"), 2);
    }
}
