//! What is told of flags that are not good: over pointers which field is which, by the wrapper what a
//! host and its log see.

use std::mem::offset_of;
use std::ptr::null;

use birkenschuh::ffi::{self, bks_answered, bks_endpoint, bks_made};
use birkenschuh::{Cookies, Endpoint, FlagFlaw, Refusal, Refused, ENDPOINT_OUTPUT};

use crate::common::frames::{challenge_message, name_message, status, GOOD_FLAGS};
use crate::raw_endpoint;

/// Flags, how many are missing and the lowest of them, or 0 and 33.
const FLAWS: [(u64, u32, u32); 9] = [
    (0x4_0300_0100, 1, 2),
    (0x4_0300_0004, 1, 8),
    (0x4_0200_0104, 1, 24),
    (0x4_0100_0104, 1, 25),
    (0x0_0300_0104, 1, 34),
    (0x0_0000_0000, 5, 2),
    (0x6_0300_0104, 0, 33),
    (0x2_0300_0104, 1, 34),
    (0x6_0300_0100, 1, 2),
];

/// What a log would show of each.
const TEXTS: [&str; 9] = [
    "1 required flag is missing: DFLAG_EXTENDED_REFERENCES (bit 2)",
    "1 required flag is missing: DFLAG_EXTENDED_PIDS_PORTS (bit 8)",
    "1 required flag is missing: DFLAG_HANDSHAKE_23 (bit 24)",
    "1 required flag is missing: DFLAG_UNLINK_ID (bit 25)",
    "1 required flag is missing: DFLAG_V4_NC (bit 34)",
    "5 required flags are missing, the lowest of them DFLAG_EXTENDED_REFERENCES (bit 2)",
    "a dynamic name is asked for: DFLAG_NAME_ME (bit 33) is set",
    "1 required flag is missing: DFLAG_V4_NC (bit 34)",
    "1 required flag is missing: DFLAG_EXTENDED_REFERENCES (bit 2)",
];

/// As the header lays them out: `include/tests/header.c` has the same numbers.
#[test]
fn structs_lie_as_in_c() {
    assert_eq!((size_of::<bks_made>(), align_of::<bks_made>()), (12, 4));
    assert_eq!(offset_of!(bks_made, refusal), 0);
    assert_eq!(offset_of!(bks_made, missing), 4);
    assert_eq!(offset_of!(bks_made, lowest), 8);
    assert_eq!(size_of::<bks_answered>(), 32);
    assert_eq!(offset_of!(bks_answered, ended), 12);
    assert_eq!(offset_of!(bks_answered, written), 16);
    assert_eq!(offset_of!(bks_answered, missing), 24);
    assert_eq!(offset_of!(bks_answered, lowest), 28);
}

#[test]
fn making_over_pointers() {
    let memory = [0xa5; size_of::<bks_endpoint>()];
    let make = |name: &[u8], flags| {
        let mut state = Box::new(bks_endpoint { bytes: memory });
        // SAFETY: the state is memory of an endpoint's size, and the name a slice.
        let made = unsafe {
            ffi::bks_endpoint_new(&mut *state, name.as_ptr(), name.len(), flags, u32::MAX)
        };
        assert_eq!(made.refusal != 0, state.bytes == memory, "{made:?}");
        (made.refusal, made.missing, made.lowest)
    };
    for (flags, missing, lowest) in FLAWS {
        assert_eq!(make(b"a@b", flags), (9, missing, lowest), "{flags:#x}");
        assert_eq!(make(b"abc", flags), (6, 0, 0), "{flags:#x}");
        assert_eq!(make(&[b'@'; 256], flags), (6, 0, 0), "{flags:#x}");
    }
    for flags in [GOOD_FLAGS, 0xffff_fffd_ffff_ffff] {
        assert_eq!(make(b"a@b", flags), (0, 0, 0), "{flags:#x}");
        assert_eq!(make(b"abc", flags), (6, 0, 0), "{flags:#x}");
    }
}

/// A message over pointers: what it tells.
fn message(state: &mut bks_endpoint, frame: &[u8]) -> bks_answered {
    let (mut out, cookie) = ([0xa5; ENDPOINT_OUTPUT], b"monster");
    // SAFETY: the state is an endpoint; the runs are slices, or empty.
    let told = unsafe {
        ffi::bks_endpoint_message(
            state,
            0,
            frame.as_ptr(),
            frame.len(),
            9,
            null(),
            0,
            cookie.as_ptr(),
            cookie.len(),
            out.as_mut_ptr(),
            out.len(),
        )
    };
    let kept = out[told.written..].iter().all(|byte| *byte == 0xa5);
    assert!(kept, "{told:?}");
    told
}

/// An endpoint whose slot 0 awaits a name or, as initiator, a challenge of c@d.
fn awaiting(challenge: bool) -> Box<bks_endpoint> {
    let (mut state, mut out) = (raw_endpoint(), [0; ENDPOINT_OUTPUT]);
    let at: *mut bks_endpoint = &mut *state;
    // SAFETY: the state is an endpoint; the runs are slices.
    unsafe {
        if challenge {
            let name = b"c@d".as_ptr();
            ffi::bks_endpoint_start(at, name, 3, out.as_mut_ptr(), out.len());
            let told = message(&mut *at, &status(b"ok"));
            assert_eq!((told.refusal, told.missing, told.lowest), (0, 0, 0));
        } else {
            ffi::bks_endpoint_arrive(at);
        }
    }
    state
}

#[test]
fn messages_over_pointers() {
    for challenge in [false, true] {
        let of = |flags, name: &[u8]| match challenge {
            false => name_message(flags, 1, name),
            true => challenge_message(flags, 5, 1, name),
        };
        for (flags, missing, lowest) in FLAWS {
            let mut state = awaiting(challenge);
            let told = message(&mut state, &of(flags, b"c@d"));
            assert_eq!((told.refusal, told.stage, told.freed), (9, 0, 32));
            assert_eq!((told.ended, told.written), (1, 0));
            assert_eq!((told.missing, told.lowest), (missing, lowest), "{flags:#x}");
            assert!(
                *state == *raw_endpoint(),
                "the slot is as if it had never been"
            );
            let told = message(&mut state, &of(flags, b"c@d"));
            assert_eq!((told.refusal, told.missing, told.lowest), (2, 0, 0));
            let told = message(&mut awaiting(challenge), &of(flags, b"cd"));
            assert_eq!((told.refusal, told.missing, told.lowest), (6, 0, 0));
        }
        let told = message(&mut awaiting(challenge), &of(GOOD_FLAGS, b"c@d"));
        assert_eq!((told.refusal, told.missing, told.lowest), (0, 0, 0));
    }
}

/// What the wrapper gives a host: the flaw, in the refusal, and a text with the protocol's name.
#[test]
fn by_the_wrapper() {
    let cookies = Cookies {
        own: b"",
        standard: b"monster",
    };
    let mut out = [0; ENDPOINT_OUTPUT];
    for ((flags, count, lowest), text) in FLAWS.into_iter().zip(TEXTS) {
        let flaw = match count {
            0 => FlagFlaw::NameMe,
            _ => FlagFlaw::Missing {
                count: count as u8,
                lowest: lowest as u8,
            },
        };
        let refusal = Refusal::BadFlags(flaw);
        assert_eq!(refusal.to_string(), text);
        assert_eq!(Endpoint::new(b"a@b", flags, 7).unwrap_err(), refusal);

        let mut endpoint = Endpoint::new(b"a@b", GOOD_FLAGS, 7).unwrap();
        let refused = Err(Refused {
            refusal,
            slot_freed: true,
        });
        let slot = endpoint.arrive().unwrap();
        let frame = name_message(flags, 1, b"c@d");
        let answer = endpoint.message(slot, &frame, 9, cookies, &mut out);
        assert_eq!(answer, refused);
        let slot = endpoint.start(b"c@d", &mut out).unwrap().slot;
        let ok = status(b"ok");
        endpoint.message(slot, &ok, 9, cookies, &mut out).unwrap();
        let frame = challenge_message(flags, 5, 1, b"c@d");
        let answer = endpoint.message(slot, &frame, 9, cookies, &mut out);
        assert_eq!(answer, refused);
    }
}
