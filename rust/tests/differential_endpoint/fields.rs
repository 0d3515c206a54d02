//! Random flags and full names, many of them near a border.

use crate::common::frames::GOOD_FLAGS;
use crate::common::rng::Rng;

pub fn good_flags(rng: &mut Rng) -> u64 {
    match rng.below(3) {
        0 => GOOD_FLAGS,
        1 => !(1 << 33),
        _ => (rng.next() | GOOD_FLAGS) & !(1 << 33),
    }
}

/// The bits that 02 requires, lowest first.
pub const REQUIRED: [u32; 5] = [2, 8, 24, 25, 34];

/// Every set of required bits.
pub fn required_sets() -> impl Iterator<Item = Vec<u32>> {
    let is_in = |set: u32, at: usize| set >> at & 1 == 1;
    let bits = move |set| {
        (0..5)
            .filter(move |at| is_in(set, *at))
            .map(|at| REQUIRED[at])
    };
    (0..32).map(move |set| bits(set).collect())
}

/// The required bits but those missing, bit 33 or not, and all else as in `others`.
pub fn flags_without(missing: &[u32], name_me: bool, others: u64) -> u64 {
    let missing: u64 = missing.iter().map(|bit| 1 << bit).sum();
    let whole = (others | GOOD_FLAGS) & !(1 << 33) & !missing;
    whole | u64::from(name_me) << 33
}

/// Some required bits missing, with bit 33 or without; now and then bit 33 alone.
pub fn bad_flags(rng: &mut Rng) -> u64 {
    let some = rng.next();
    let others = *rng.pick(&[0, !0, some]);
    if rng.below(16) == 0 {
        return flags_without(&[], true, others);
    }
    let missing = required_sets().nth(1 + rng.below(31)).expect("32 sets");
    flags_without(&missing, rng.chance(50), others)
}

/// Now and then bad ones.
pub fn flags(rng: &mut Rng) -> u64 {
    if rng.below(8) == 0 {
        bad_flags(rng)
    } else {
        good_flags(rng)
    }
}

pub fn full_name(rng: &mut Rng) -> Vec<u8> {
    let length = if rng.chance(20) {
        *rng.pick(&[3, 254, 255])
    } else {
        3 + rng.below(20)
    };
    let letters: &[u8] = if rng.chance(50) {
        b"abc"
    } else {
        b"\0\x01?A\x7f\x80\xff"
    };
    let mut name: Vec<u8> = (0..length).map(|_| *rng.pick(letters)).collect();
    name[1 + rng.below(length - 2)] = b'@';
    name
}

/// A full name that is this one's prefix, longer, just less or just greater, or another one.
pub fn near(rng: &mut Rng, own: &[u8]) -> Vec<u8> {
    let mut name = own.to_vec();
    let last = name.len() - 1;
    match rng.below(5) {
        0 => name.truncate(last),
        1 => name.push(rng.next() as u8),
        2 => name[last] = name[last].wrapping_add(1),
        3 => name[last] = name[last].wrapping_sub(1),
        _ => return full_name(rng),
    }
    if model::is_full_name(&name) {
        name
    } else {
        full_name(rng)
    }
}

pub fn broken_name(rng: &mut Rng) -> Vec<u8> {
    let long = [&b"x@"[..], &[b'y'; 254]].concat();
    let broken: [&[u8]; 9] = [
        b"",
        b"@",
        b"a@",
        b"@b",
        b"ab",
        b"abc",
        b"a@b@c",
        &long,
        &long[..255],
    ];
    rng.pick(&broken).to_vec()
}
