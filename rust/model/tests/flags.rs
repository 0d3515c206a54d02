//! The flag test of 02, P3, by cases written out by hand, and that each call that gives 9 carries on
//! what it answered.

use model::{test_flags, Cookies, Endpoint, FlagFlaw, Refusal, Stage, ENDPOINT_OUTPUT};

const GOOD: u64 = 0x4_0300_0104;

/// Flags with how many are missing and the lowest, or 0 and 33.
const FLAWS: [(u64, u32, u32); 20] = [
    (0x4_0300_0100, 1, 2),
    (0x4_0300_0004, 1, 8),
    (0x4_0200_0104, 1, 24),
    (0x4_0100_0104, 1, 25),
    (0x0_0300_0104, 1, 34),
    (0, 5, 2),
    (0xffff_fff9_fcff_fefb, 5, 2),
    (0xffff_fffb_fcff_fefb, 5, 2),
    (0x100_0104, 2, 25),
    (0x4_0000_0004, 3, 8),
    (0x4_0000_0104, 2, 24),
    (0x4, 4, 8),
    (0x104, 3, 24),
    (0x4_0000_0000, 4, 2),
    // Bit 33, alone and behind missing ones.
    (0x6_0300_0104, 0, 33),
    (0xffff_ffff_ffff_ffff, 0, 33),
    (0x2_0300_0104, 1, 34),
    (0x6_0300_0100, 1, 2),
    (0x2_0000_0000, 5, 2),
    (0xffff_fffb_ffff_ffff, 1, 34),
];

const COOKIES: Cookies<'static> = Cookies {
    own: b"",
    standard: b"monster",
};

#[test]
fn the_test_alone() {
    for (flags, missing, lowest) in FLAWS {
        let flaw = test_flags(flags).unwrap_err();
        assert_eq!(flaw.values(), (missing, lowest), "{flags:#x}");
        assert_eq!(flaw == FlagFlaw::NameMe, lowest == 33, "{flags:#x}");
    }
    for flags in [GOOD, 0x4_0700_0104, 0xffff_fffd_ffff_ffff] {
        assert_eq!(test_flags(flags), Ok(()));
    }
    for bit in 35..64 {
        assert_eq!(test_flags(GOOD | 1 << bit), Ok(()), "bit {bit}");
    }
}

/// A name message of c@d, or with a challenge a challenge message.
fn message(flags: u64, challenge: Option<u32>) -> Vec<u8> {
    let mut body = b"N".to_vec();
    body.extend(flags.to_be_bytes());
    body.extend(challenge.iter().flat_map(|number| number.to_be_bytes()));
    body.extend(b"\x00\x00\x00\x01\x00\x03c@d");
    [&[0, body.len() as u8], &body[..]].concat()
}

#[test]
fn each_call_carries_it_on() {
    let mut out = [0; ENDPOINT_OUTPUT];
    for (flags, missing, lowest) in FLAWS {
        let carried = |refusal| match refusal {
            Refusal::BadFlags(flaw) => assert_eq!(flaw.values(), (missing, lowest), "{flags:#x}"),
            other => panic!("{flags:#x}: {other:?}"),
        };
        carried(Endpoint::new(b"a@b", flags, 1).unwrap_err());

        let mut acceptor = Endpoint::new(b"a@b", GOOD, 1).unwrap();
        acceptor.arrive().unwrap();
        let name = message(flags, None);
        carried(
            acceptor
                .message(0, &name, 9, COOKIES, &mut out)
                .unwrap_err(),
        );
        assert_eq!(acceptor.slot(0).stage, Stage::Free);

        let mut initiator = Endpoint::new(b"a@b", GOOD, 1).unwrap();
        initiator.start(b"c@d", &mut out).unwrap();
        let status = b"\x00\x03sok";
        initiator.message(0, status, 9, COOKIES, &mut out).unwrap();
        let challenge = message(flags, Some(5));
        let told = initiator.message(0, &challenge, 9, COOKIES, &mut out);
        carried(told.unwrap_err());
        assert_eq!(initiator.slot(0).stage, Stage::Free);
    }
}

/// 6 comes before 9.
#[test]
fn names_are_tested_before() {
    assert_eq!(Endpoint::new(b"ab", 0, 1).unwrap_err(), Refusal::BadName);
    let mut out = [0; ENDPOINT_OUTPUT];
    let mut endpoint = Endpoint::new(b"a@b", GOOD, 1).unwrap();
    endpoint.arrive().unwrap();
    let mut name = message(0, None);
    let last = name.len() - 2;
    name[last] = b'x';
    let told = endpoint.message(0, &name, 9, COOKIES, &mut out);
    assert_eq!(told.unwrap_err(), Refusal::BadName);
}
