//! The boundary itself: the sizes of the states, states as bytes, null pointers, the header's numbers,
//! numbers that the wrapper has to narrow, and what a log would show.

#[path = "../common/mod.rs"]
mod common;

mod client;
mod flags;
mod numbers;
mod sizes;

use std::ptr::{null, null_mut};

use birkenschuh::ffi::{self, bks_endpoint, bks_registry};
use birkenschuh::{Cookies, Endpoint, Refusal, Refused, Registry, Slot};
use birkenschuh::{ENDPOINT_OUTPUT, REGISTRY_OUTPUT};
use common::frames::{Alive2, GOOD_FLAGS};

/// A registry made in memory of the host's choosing.
fn raw_registry() -> Box<bks_registry> {
    let mut state = Box::<bks_registry>::new_uninit();
    // SAFETY: the call writes the state, which the assertion sees.
    unsafe {
        assert_eq!(ffi::bks_registry_new(state.as_mut_ptr(), 4369, 4), 0);
        state.assume_init()
    }
}

/// An endpoint made in memory of the host's choosing.
fn raw_endpoint() -> Box<bks_endpoint> {
    let (name, mut state) = (b"a@b", Box::<bks_endpoint>::new_uninit());
    // SAFETY: the name is a slice, and the call writes the state, which the assertion sees.
    unsafe {
        let at = state.as_mut_ptr();
        let made = ffi::bks_endpoint_new(at, name.as_ptr(), name.len(), GOOD_FLAGS, 7);
        assert_eq!(made.refusal, 0);
        state.assume_init()
    }
}

/// Null with length 0 is an empty run, wherever a run is lent.
#[test]
fn null_is_an_empty_run() {
    let mut out = [0xa5; REGISTRY_OUTPUT];
    let mut state = raw_registry();
    // SAFETY: the state is a registry; each run is `out`, or empty.
    unsafe {
        let told =
            ffi::bks_registry_request(&mut *state, 1, null(), 0, out.as_mut_ptr(), out.len());
        assert_eq!((told.refusal, told.written), (3, 0));
        let told = ffi::bks_registry_request(&mut *state, 1, null(), 0, null_mut(), 0);
        assert_eq!((told.refusal, told.written), (1, 0));
        let mut digest = [0xa5; 17];
        ffi::bks_md5(null(), 0, digest.as_mut_ptr());
        assert_eq!(digest[..16], model::md5(b""));
        assert_eq!(digest[16], 0xa5, "a digest has sixteen bytes");
        assert!(!ffi::bks_node_name_ok(null(), 0) && !ffi::bks_full_name_ok(null(), 0));
        assert_eq!(ffi::bks_compare(null(), 0, null(), 0), 0);
    }
    assert!(out.iter().all(|byte| *byte == 0xa5));
}

#[test]
fn null_is_an_empty_run_for_the_endpoint() {
    let mut out = [0xa5; ENDPOINT_OUTPUT];
    let (at, room) = (out.as_mut_ptr(), out.len());
    let mut state = raw_endpoint();
    let e: *mut bks_endpoint = &mut *state;
    // SAFETY: the state is an endpoint; each run is `out`, or empty.
    unsafe {
        let made = ffi::bks_endpoint_new(e, null(), 0, GOOD_FLAGS, 7);
        assert_eq!(made.refusal, 6);
        assert_eq!(ffi::bks_endpoint_start(e, null(), 0, at, room).refusal, 6);
        assert_eq!(
            ffi::bks_endpoint_start(e, null(), 0, null_mut(), 0).refusal,
            1
        );
        let message = |at, room| {
            ffi::bks_endpoint_message(e, 0, null(), 0, 0, null(), 0, null(), 0, at, room).refusal
        };
        assert_eq!(ffi::bks_endpoint_arrive(e).refusal, 0);
        assert_eq!(message(null_mut(), 0), 1);
        assert_eq!(message(at, room), 3);
        assert_eq!(message(at, room), 2);
    }
    assert!(out.iter().all(|byte| *byte == 0xa5));
}

/// A refused making writes no state.
#[test]
fn a_refused_making_writes_nothing() {
    let mut memory = vec![0xa5a5_a5a5_a5a5_a5a5u64; size_of::<bks_registry>().div_ceil(8)];
    let at = memory.as_mut_ptr();
    // SAFETY: the memory is of a registry's and an endpoint's size, and the calls are refused.
    unsafe {
        assert_eq!(ffi::bks_registry_new(at.cast(), 4369, 0), 17);
        for (name, flags, refusal) in [
            (b"a@b", 0, 9),
            (b"a@b", GOOD_FLAGS | 1 << 33, 9),
            (b"abc", GOOD_FLAGS, 6),
        ] {
            let made = ffi::bks_endpoint_new(at.cast(), name.as_ptr(), 3, flags, 1);
            assert_eq!(made.refusal, refusal);
        }
    }
    assert!(memory.iter().all(|word| *word == 0xa5a5_a5a5_a5a5_a5a5));
}

/// Each field of a registration comes back as what it is, and in its own place.
#[test]
fn fields_of_a_registration() {
    let request = Alive2 {
        port: 0x0102,
        kind: 3,
        protocol: 4,
        highest: 0x0506,
        lowest: 6,
        name: b"name",
        extra: b"extra",
    };
    let mut registry = Registry::new(0xfffe, 0x0708_090a).unwrap();
    let mut out = [0; REGISTRY_OUTPUT];
    registry
        .request(0x0b0c_0d0e, &request.frame(), &mut out)
        .unwrap();
    let node = registry.entry(0).unwrap();
    assert_eq!((node.connection, node.creation), (0x0b0c_0d0e, 0x0708_090a));
    assert_eq!((node.port, node.kind, node.protocol), (0x0102, 3, 4));
    assert_eq!((node.highest, node.lowest), (0x0506, 6));
    assert_eq!(
        (&node.name[..], &node.extra[..]),
        (&b"name"[..], &b"extra"[..])
    );
    assert_eq!(
        (registry.port(), registry.next_creation()),
        (0xfffe, 0x0708_090b)
    );
}

/// A place or slot whose number has more than 32 bits is not the one of its lower bits.
#[test]
fn numbers_are_not_cut() {
    let mut out = [0; REGISTRY_OUTPUT];
    let mut registry = Registry::new(4369, 1).unwrap();
    registry
        .request(1, &Alive2::of(b"name").frame(), &mut out)
        .unwrap();
    assert!(registry.entry(0).is_some());
    for place in [64, 1 << 32, usize::MAX] {
        assert_eq!(registry.entry(place), None);
    }
    let mut endpoint = Endpoint::new(b"a@b", GOOD_FLAGS, 1).unwrap();
    endpoint.arrive().unwrap();
    let cookies = Cookies {
        own: b"",
        standard: b"monster",
    };
    for slot in [32, 1 << 32, usize::MAX] {
        assert_eq!(endpoint.slot(slot), Slot::default());
        assert_eq!(endpoint.close(slot), Err(Refusal::SlotNotTaken));
        let answer = endpoint.message(slot, b"", 0, cookies, &mut out[..ENDPOINT_OUTPUT]);
        let refused = Refused {
            refusal: Refusal::SlotNotTaken,
            slot_freed: false,
        };
        assert_eq!(answer, Err(refused));
    }
    assert_ne!(endpoint.slot(0), Slot::default());
}

/// The greatest numbers through the functions over pointers.
#[test]
fn the_last_place_and_slot() {
    let (registry, endpoint) = (raw_registry(), raw_endpoint());
    // SAFETY: the states are a registry and an endpoint.
    unsafe {
        for number in [63, 64, u32::MAX] {
            assert_eq!(ffi::bks_registry_entry(&*registry, number).name_len, 0);
            assert_eq!(ffi::bks_endpoint_slot(&*endpoint, number).stage, 0);
        }
    }
}

/// A clone goes its own way.
#[test]
fn clones_are_apart() {
    let mut out = [0; REGISTRY_OUTPUT];
    let mut registry = Registry::new(4369, 1).unwrap();
    let before = registry.clone();
    registry
        .request(1, &Alive2::of(b"name").frame(), &mut out)
        .unwrap();
    assert_eq!(
        (
            registry.registrations().count(),
            before.registrations().count()
        ),
        (1, 0)
    );
    let mut endpoint = Endpoint::new(b"a@b", GOOD_FLAGS, 1).unwrap();
    let before = endpoint.clone();
    endpoint.arrive().unwrap();
    assert_eq!(before.slot(0), Slot::default());
    assert_ne!(endpoint.slot(0), Slot::default());
}

/// States can be handed to another thread.
#[test]
fn states_can_be_sent() {
    fn is_send<T: Send + 'static>() {}
    is_send::<Registry>();
    is_send::<Endpoint>();
}

/// A state is its bytes: stored and fetched it goes on as before, and equal states are equal bytes.
#[test]
fn states_are_bytes() {
    let mut out = [0; REGISTRY_OUTPUT];
    let mut registry = Registry::new(4369, 1).unwrap();
    registry
        .request(1, &Alive2::of(b"name").frame(), &mut out)
        .unwrap();
    let mut fetched = Registry::from_bytes(registry.as_bytes());
    assert_eq!(fetched, registry);
    assert!(fetched.close(1));
    assert_ne!(fetched, registry);
    assert!(registry.close(1));
    assert_eq!(fetched.as_bytes(), registry.as_bytes());
    assert_eq!(registry, Registry::new(4369, 2).unwrap());

    let mut endpoint = Endpoint::new(b"a@b", GOOD_FLAGS, 1).unwrap();
    let slot = endpoint.start(b"c@d", &mut out).unwrap().slot;
    let mut fetched = Endpoint::from_bytes(endpoint.as_bytes());
    assert_eq!(fetched, endpoint);
    fetched.close(slot).unwrap();
    assert_ne!(fetched, endpoint);
    assert_eq!(fetched, Endpoint::new(b"a@b", GOOD_FLAGS, 1).unwrap());
}

/// What a log would show: names as text, and no cookie.
#[test]
fn debug_shows_names_as_text() {
    let mut out = [0; REGISTRY_OUTPUT];
    let mut registry = Registry::new(4369, 1).unwrap();
    let request = Alive2 {
        extra: b"\xff",
        ..Alive2::of("fähre".as_bytes())
    };
    registry.request(1, &request.frame(), &mut out).unwrap();
    let shown = format!("{registry:?}");
    assert!(shown.contains("name: \"fähre\""), "{shown}");
    assert!(shown.contains(r#"extra: b"\xff""#), "{shown}");
    let mut endpoint = Endpoint::new(b"a@b", GOOD_FLAGS, 1).unwrap();
    endpoint.start(b"c@d", &mut out).unwrap();
    let cookies = Cookies {
        own: b"monster",
        standard: b"monster",
    };
    endpoint
        .message(0, b"\x00\x03sok", 0, cookies, &mut out)
        .unwrap();
    let shown = format!("{endpoint:?} {cookies:?}");
    let (own, slots) = shown.split_once("slots").unwrap();
    assert!(
        own.contains("name: \"a@b\"") && slots.contains("name: \"c@d\""),
        "{shown}"
    );
    assert!(!shown.contains("monster"), "{shown}");
}
