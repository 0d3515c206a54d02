//! Names that a node may register, and names that it may not.

use super::rng::Rng;

/// Well-formed UTF-8 at the borders of RFC 3629's table.
pub const GOOD: [&[u8]; 14] = [
    b"a",
    b"\x01",
    b"\x7f",
    b"\xc2\x80",
    b"\xdf\xbf",
    b"\xe0\xa0\x80",
    b"\xe1\x80\x80",
    b"\xec\xbf\xbf",
    b"\xed\x9f\xbf",
    b"\xee\x80\x80",
    b"\xef\xbf\xbf",
    b"\xf0\x90\x80\x80",
    b"\xf3\xbf\xbf\xbf",
    b"\xf4\x8f\xbf\xbf",
];

/// Just beyond those borders, cut short, or what a name may not have.
pub const BAD: [&[u8]; 16] = [
    b"\0",
    b"@",
    b"\x80",
    b"\xbf",
    b"\xc0\x80",
    b"\xc1\xbf",
    b"\xc2",
    b"\xe0\x9f\xbf",
    b"\xe2\x82",
    b"\xed\xa0\x80",
    b"\xf0\x8f\xbf\xbf",
    b"\xf0\x9f\x98",
    b"\xf4\x90\x80\x80",
    b"\xf5\x80\x80\x80",
    b"\xe2\x82\x41",
    b"\xff",
];

const NAME_LENGTHS: [usize; 9] = [0, 1, 2, 253, 254, 255, 256, 257, 300];

/// A name of plain bytes, of pieces at UTF-8's borders, or of both, of a length at the rule's borders; sometimes not a name.
pub fn name(rng: &mut Rng) -> Vec<u8> {
    let length = if rng.chance(30) {
        *rng.pick(&NAME_LENGTHS)
    } else {
        1 + rng.below(40)
    };
    let mut name = Vec::new();
    // In a hundred.
    let pieces = *rng.pick(&[0, 0, 4, 100, 100]);
    while name.len() < length {
        let piece = if rng.chance(pieces) {
            rng.pick(&GOOD)
        } else {
            &[b'a' + rng.below(26) as u8][..]
        };
        let fits = name.len() + piece.len() <= length;
        name.extend_from_slice(if fits { piece } else { b"z" });
    }
    if rng.chance(8) {
        let bad = *rng.pick(&BAD);
        let at = rng.below(name.len() + 1);
        name.splice(at..at, bad.iter().copied());
    }
    name
}
