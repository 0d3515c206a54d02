//! The states as the library lays them out in a host's memory: the fields below, one behind the
//! other, numbers big-endian, a name or extra field with a length of one byte before it and zeros
//! behind it up to its room. A free place and a free slot are all zero.

use crate::bytes::Short;
use crate::{Endpoint, Registration, Registry, Slot};

fn put<const N: usize>(run: &Short<N>, to: &mut Vec<u8>) {
    to.push(run.len() as u8);
    to.extend_from_slice(run);
    to.resize(to.len() + N - run.len(), 0);
}

impl Registration {
    fn put(&self, to: &mut Vec<u8>) {
        put(&self.name, to);
        put(&self.extra, to);
        to.extend_from_slice(&[self.kind, self.protocol]);
        for number in [self.port, self.highest, self.lowest] {
            to.extend_from_slice(&number.to_be_bytes());
        }
        for number in [self.connection, self.creation] {
            to.extend_from_slice(&number.to_be_bytes());
        }
    }
}

impl Registry {
    /// Puts the registry's bytes behind what is there: port, next creation, places.
    pub fn put_bytes(&self, to: &mut Vec<u8>) {
        const PLACE: usize = 256 + 129 + 2 + 3 * 2 + 2 * 4;
        to.extend_from_slice(&self.port().to_be_bytes());
        to.extend_from_slice(&self.next_creation().to_be_bytes());
        for place in 0..64 {
            match self.entry(place) {
                Some(registration) => registration.put(to),
                None => to.resize(to.len() + PLACE, 0),
            }
        }
    }
}

impl Slot {
    fn put(&self, to: &mut Vec<u8>) {
        to.extend_from_slice(&self.flags.to_be_bytes());
        to.extend_from_slice(&self.creation.to_be_bytes());
        to.extend_from_slice(&self.challenge.to_be_bytes());
        to.push(self.stage as u8);
        put(&self.name, to);
    }
}

impl Endpoint {
    /// Puts the endpoint's bytes behind what is there: own name, flags, creation, slots.
    pub fn put_bytes(&self, to: &mut Vec<u8>) {
        put(&self.name, to);
        to.extend_from_slice(&self.flags.to_be_bytes());
        to.extend_from_slice(&self.creation.to_be_bytes());
        for slot in &self.slots {
            slot.put(to);
        }
    }
}
