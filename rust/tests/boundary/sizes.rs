//! How much memory the library takes for a state, seen from the library's side: it writes all of it
//! in making, and nothing beside it, at any alignment.

use birkenschuh::ffi::{self, bks_endpoint, bks_registry};
use birkenschuh::{ENDPOINT_SIZE, REGISTRY_SIZE};

use crate::common::frames::GOOD_FLAGS;

const GUARD: usize = 256;

/// Which bytes `write` has written: those that differ from one pattern or the other.
fn written(length: usize, write: impl Fn(*mut u8)) -> Vec<usize> {
    let patterned = |pattern: u8, beside: usize| {
        let mut memory = vec![pattern; length + GUARD + 16];
        let at = memory.as_ptr().align_offset(8) + beside;
        write(memory[at..].as_mut_ptr());
        memory.split_off(at)
    };
    let (first, second) = (patterned(0xa5, 0), patterned(0x5a, 1));
    let is_written = |i: &usize| first[*i] != 0xa5 || second[*i] != 0x5a;
    (0..length + GUARD).filter(is_written).collect()
}

#[test]
fn registry() {
    // SAFETY: the memory has room for the state and more.
    let written = written(REGISTRY_SIZE, |memory| unsafe {
        assert_eq!(ffi::bks_registry_new(memory.cast(), 4369, 0x0102_0304), 0);
    });
    assert_eq!(written, (0..REGISTRY_SIZE).collect::<Vec<usize>>());
}

#[test]
fn endpoint() {
    // SAFETY: the memory has room for the state and more.
    let written = written(ENDPOINT_SIZE, |memory| unsafe {
        let name = b"a@b".as_ptr();
        let made = ffi::bks_endpoint_new(memory.cast(), name, 3, GOOD_FLAGS, 0x0102_0304);
        assert_eq!(made.refusal, 0);
    });
    assert_eq!(written, (0..ENDPOINT_SIZE).collect::<Vec<usize>>());
}

#[test]
fn as_the_library_tells_them() {
    assert_eq!(birkenschuh::check(), Ok(()));
    assert_eq!(
        (align_of::<bks_registry>(), align_of::<bks_endpoint>()),
        (1, 1)
    );
}
