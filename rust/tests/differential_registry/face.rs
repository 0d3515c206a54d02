//! A registry through the safe wrapper or through the functions over pointers.

use std::mem::MaybeUninit;

use birkenschuh::ffi::{self, bks_registration, bks_registry};
use birkenschuh::{Asked, Registration, Registry};

pub enum Face {
    Safe(Registry),
    Raw(Box<bks_registry>),
}

impl Face {
    pub fn new(raw: bool, port: u16, first_creation: u32) -> Result<Face, u32> {
        if !raw {
            let made = Registry::new(port, first_creation);
            return made.map(Face::Safe).map_err(|refusal| refusal.number());
        }
        let mut state = Box::new(MaybeUninit::uninit());
        // SAFETY: the state is written where the call is not refused, and read only then.
        unsafe {
            match ffi::bks_registry_new(state.as_mut_ptr(), port, first_creation) {
                0 => Ok(Face::Raw(state.assume_init())),
                refusal => Err(refusal),
            }
        }
    }

    /// The length of the reply and, from the safe wrapper, what was asked. On the raw side, an empty
    /// run is lent as null.
    pub fn request(
        &mut self,
        connection: u32,
        frame: &[u8],
        out: &mut [u8],
    ) -> Result<(usize, Option<Asked>), u32> {
        let state = match self {
            Face::Safe(registry) => {
                return registry
                    .request(connection, frame, out)
                    .map(|reply| (reply.written, Some(reply.asked)))
                    .map_err(|refusal| refusal.number())
            }
            Face::Raw(state) => &mut **state,
        };
        let (frame_at, frame_len) = match frame {
            [] => (std::ptr::null(), 0),
            _ => (frame.as_ptr(), frame.len()),
        };
        let (out_at, out_len) = match out {
            [] => (std::ptr::null_mut(), 0),
            _ => (out.as_mut_ptr(), out.len()),
        };
        // SAFETY: the state is a registry; the runs are slices, or empty.
        let told = unsafe {
            ffi::bks_registry_request(state, connection, frame_at, frame_len, out_at, out_len)
        };
        match told.refusal {
            0 => Ok((told.written, None)),
            refusal => {
                assert_eq!(told.written, 0, "a refused call writes nothing");
                Err(refusal)
            }
        }
    }

    pub fn close(&mut self, connection: u32) -> bool {
        match self {
            Face::Safe(registry) => registry.close(connection),
            // SAFETY: the state is a registry.
            Face::Raw(state) => unsafe { ffi::bks_registry_close(&mut **state, connection) },
        }
    }

    /// The registry as it lies in memory.
    pub fn bytes(&self) -> &[u8] {
        match self {
            Face::Safe(registry) => registry.as_bytes(),
            Face::Raw(state) => &state.bytes,
        }
    }

    pub fn entry(&self, place: usize) -> Option<Registration> {
        match self {
            Face::Safe(registry) => registry.entry(place),
            // SAFETY: the state is a registry.
            Face::Raw(state) => {
                raw_entry(unsafe { ffi::bks_registry_entry(&**state, place as u32) })
            }
        }
    }

    pub fn next_creation(&self) -> u32 {
        match self {
            Face::Safe(registry) => registry.next_creation(),
            // SAFETY: the state is a registry.
            Face::Raw(state) => unsafe { ffi::bks_registry_next(&**state) },
        }
    }

    pub fn port(&self) -> u16 {
        match self {
            Face::Safe(registry) => registry.port(),
            // SAFETY: the state is a registry.
            Face::Raw(state) => unsafe { ffi::bks_registry_port(&**state) },
        }
    }
}

/// What lies behind a length must be zero, and all of a free place.
fn raw_entry(entry: bks_registration) -> Option<Registration> {
    let (name, behind_name) = entry.name.split_at(usize::from(entry.name_len));
    let (extra, behind_extra) = entry.extra.split_at(usize::from(entry.extra_len));
    assert!(behind_name
        .iter()
        .chain(behind_extra)
        .all(|byte| *byte == 0));
    if name.is_empty() {
        let numbers = [entry.connection, entry.creation];
        let shorts = [entry.port, entry.highest, entry.lowest];
        let bytes = [entry.kind, entry.protocol, entry.extra_len];
        assert_eq!((numbers, shorts, bytes), ([0; 2], [0; 3], [0; 3]));
        return None;
    }
    Some(Registration {
        connection: entry.connection,
        creation: entry.creation,
        port: entry.port,
        kind: entry.kind,
        protocol: entry.protocol,
        highest: entry.highest,
        lowest: entry.lowest,
        name: name.to_vec(),
        extra: extra.to_vec(),
    })
}
