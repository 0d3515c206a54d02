//! Random calls of the client, most of them near a border.

use crate::calls::{Call, Reader, Request};
use crate::common::frames::{hurt, noise};
use crate::common::names::name;
use crate::common::node::Fields;
use crate::common::rng::Rng;

const NAME_LENGTHS: [usize; 8] = [0, 1, 254, 255, 256, 257, 65_535, 70_000];
const EXTRA_LENGTHS: [usize; 9] = [0, 1, 126, 127, 128, 129, 130, 65_535, 65_536];
const VERSIONS: [u16; 8] = [0, 4, 5, 6, 7, 255, 256, 65_535];

pub fn call(rng: &mut Rng) -> Call {
    match rng.below(10) {
        0..=4 => write(rng),
        5..=6 => Reader::Alive2.of(alive2_reply(rng)),
        7..=8 => Reader::Port2.of(port2_reply(rng)),
        _ => rng.pick(&Reader::ALL).of(noise(rng)),
    }
}

/// A request, and an output that it just fits, or just does not.
fn write(rng: &mut Rng) -> Call {
    let (request, length) = match rng.below(10) {
        0 => (Request::Names, 3),
        1..=3 => {
            let name = any_name(rng);
            let length = 3 + name.len();
            (Request::PortPlease2(name), length)
        }
        _ => {
            let fields = fields(rng);
            let length = 15 + fields.name.len() + fields.extra.len();
            (Request::Alive2(fields), length)
        }
    };
    let room = match rng.below(4) {
        0 => length - 1 - rng.below(length.min(20)),
        1 => length,
        2 => length + rng.below(20),
        _ => *rng.pick(&[0, 1, 2, 3, 398, 1000]),
    };
    Call::Write { room, request }
}

fn any_name(rng: &mut Rng) -> Vec<u8> {
    match rng.below(20) {
        0 => vec![b'n'; *rng.pick(&NAME_LENGTHS)],
        _ => name(rng),
    }
}

/// Fields that a node may register, but for one now and then.
fn fields(rng: &mut Rng) -> Fields {
    let extra = if rng.chance(30) { rng.below(129) } else { 0 };
    let mut fields = Fields {
        port: rng.next() as u16,
        kind: rng.next() as u8,
        protocol: rng.next() as u8,
        highest: *rng.pick(&[5, 6, 6, 7, 65_535]),
        lowest: *rng.pick(&[0, 5]),
        name: any_name(rng),
        extra: rng.bytes(extra),
    };
    if rng.chance(20) {
        fields.highest = *rng.pick(&VERSIONS);
        fields.lowest = *rng.pick(&VERSIONS);
    }
    if rng.chance(20) {
        fields.extra = vec![0x5a; *rng.pick(&EXTRA_LENGTHS)];
    }
    fields
}

fn alive2_reply(rng: &mut Rng) -> Vec<u8> {
    let tag = *rng.pick(&[118, 121, 118, 121, 118, 121, 119, 120]);
    let mut reply = vec![tag, *rng.pick(&[0, 0, 0, 1, 2, 3, 255])];
    let rest = *rng.pick(&[4, 2]);
    reply.extend(rng.bytes(rest));
    if rng.chance(25) {
        hurt(rng, &mut reply);
    }
    reply
}

/// The fields need not be such as the mapper lets in.
fn port2_reply(rng: &mut Rng) -> Vec<u8> {
    let result = *rng.pick(&[0, 0, 0, 0, 1, 255]);
    let mut reply = vec![119, result];
    if result == 0 || rng.chance(20) {
        reply.extend(rng.bytes(8));
        for length in [
            *rng.pick(&[0, 1, 4, 255, 256, 300]),
            *rng.pick(&[0, 0, 1, 128, 129, 300]),
        ] {
            reply.extend((length as u16).to_be_bytes());
            reply.extend(rng.bytes(length));
        }
    }
    if rng.chance(40) {
        hurt(rng, &mut reply);
    }
    reply
}
