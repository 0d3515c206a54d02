//! Random cookies, many of them near a border, and with which of them digests were right.

use crate::common::rng::Rng;
use crate::common::tally::Tally;

/// At the borders of the rule; where MD5 needs a second block for the cookie and one digit; and where
/// the cookie and ten digits have 255 and 256 bytes.
pub const COOKIE_LENGTHS: [usize; 11] = [0, 1, 2, 54, 55, 56, 245, 246, 254, 255, 256];

/// How many in a thousand right digests must be with a cookie of each look: a third of them is made so.
pub const LOOK_SHARE: u64 = 250;

/// What a cookie may look like, and whether one does.
type Look = (&'static str, fn(&[u8]) -> bool);

const LOOKS: [Look; 2] = [
    ("a digit last", |cookie| {
        cookie.last().is_some_and(u8::is_ascii_digit)
    }),
    ("a zero byte", |cookie| cookie.contains(&0)),
];

/// Any bytes; or with digits last, which run together with the challenge's; or with a zero byte.
pub fn cookie(rng: &mut Rng, length: usize) -> Vec<u8> {
    let mut cookie = rng.bytes(length);
    match rng.below(3) {
        0 => {
            let digits = length.min(1 + rng.below(10));
            cookie[length - digits..].fill_with(|| b'0' + rng.below(10) as u8);
        }
        1 if length > 0 => cookie[rng.below(length)] = 0,
        _ => (),
    }
    cookie
}

fn right(length: usize) -> String {
    format!("right digest, cookie of {length} bytes")
}

/// Counts a digest that was right with this cookie.
pub fn count_right(cookie: &[u8], tally: &mut Tally) {
    if !COOKIE_LENGTHS.contains(&cookie.len()) {
        return;
    }
    let what = right(cookie.len());
    for (look, _) in LOOKS.iter().filter(|(_, has)| has(cookie)) {
        tally.count(format!("{what}, {look}"));
    }
    tally.count(what);
}

/// All that is so counted of the lengths that are allowed, each behind the count of its length.
pub fn counted() -> Vec<(String, String)> {
    let looks = |length: &usize| {
        let of = right(*length);
        LOOKS.map(|(look, _)| (of.clone(), format!("{of}, {look}")))
    };
    COOKIE_LENGTHS[1..10].iter().flat_map(looks).collect()
}
