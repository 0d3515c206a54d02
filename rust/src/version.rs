//! Whether the library that was linked is the one that this crate was written for.

use std::error::Error;
use std::fmt;
use std::sync::atomic::{AtomicBool, Ordering};

use crate::{ffi, ENDPOINT_SIZE, REGISTRY_SIZE};

/// The library that was linked is of another version than this crate: a state or an answer would not
/// have the size that the library takes it to have.
#[derive(Clone, Copy, Debug, PartialEq, Eq)]
pub struct Mismatch {
    /// The boundary's version, as the library tells it.
    pub abi: u32,
    /// A registry's bytes, as the library tells them.
    pub registry_size: usize,
    /// An endpoint's bytes, as the library tells them.
    pub endpoint_size: usize,
}

impl fmt::Display for Mismatch {
    fn fmt(&self, f: &mut fmt::Formatter<'_>) -> fmt::Result {
        write!(
            f,
            "libbirkenschuh.a is of boundary version {}, with states of {} and {} bytes; \
             this crate is of version {}, with {REGISTRY_SIZE} and {ENDPOINT_SIZE}: \
             build both from one source",
            self.abi,
            self.registry_size,
            self.endpoint_size,
            ffi::BKS_ABI,
        )
    }
}

impl Error for Mismatch {}

/// Compares the library that was linked with this crate. Making a [`Registry`](crate::Registry) or
/// an [`Endpoint`](crate::Endpoint) does so too, and each call of [`client`](crate::client), and
/// panics where they differ.
///
/// ```
/// birkenschuh::check()?;
/// # Ok::<(), birkenschuh::Mismatch>(())
/// ```
pub fn check() -> Result<(), Mismatch> {
    // SAFETY: the calls take nothing.
    let library = unsafe {
        Mismatch {
            abi: ffi::bks_abi(),
            registry_size: ffi::bks_registry_size(),
            endpoint_size: ffi::bks_endpoint_size(),
        }
    };
    let expected = Mismatch {
        abi: ffi::BKS_ABI,
        registry_size: REGISTRY_SIZE,
        endpoint_size: ENDPOINT_SIZE,
    };
    if library == expected {
        Ok(())
    } else {
        Err(library)
    }
}

/// Stops before a state or an answer is lent that the library would write past. A library does not
/// change while a program runs, so one that fits is asked once.
pub(crate) fn demand() {
    static FITS: AtomicBool = AtomicBool::new(false);
    if !FITS.load(Ordering::Relaxed) {
        match check() {
            Ok(()) => FITS.store(true, Ordering::Relaxed),
            Err(mismatch) => panic!("{mismatch}"),
        }
    }
}
