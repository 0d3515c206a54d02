//! What several tests use.

// Each test is a crate of its own and uses only a part of this.
#![allow(dead_code)]

pub mod differ;
pub mod frames;
pub mod names;
pub mod node;
pub mod rng;
pub mod tally;

use std::str::FromStr;

use birkenschuh::Cookies;

/// No peer has a cookie of its own.
pub fn standard(cookie: &[u8]) -> Cookies<'_> {
    Cookies {
        own: b"",
        standard: cookie,
    }
}

/// What a word of a written call says.
pub fn number<T: FromStr>(word: &str) -> Result<T, String> {
    word.parse().map_err(|_| format!("not a value: {word}"))
}

/// The bytes in hexadecimal, "-" for none.
pub fn to_hex(bytes: &[u8]) -> String {
    if bytes.is_empty() {
        return "-".to_string();
    }
    bytes.iter().map(|byte| format!("{byte:02x}")).collect()
}

/// The inverse of [`to_hex`]; spaces are skipped.
pub fn from_hex(text: &str) -> Result<Vec<u8>, String> {
    let digits: Vec<u8> = text.bytes().filter(|byte| *byte != b' ').collect();
    if digits == b"-" {
        return Ok(Vec::new());
    }
    let byte = |pair: &[u8]| {
        let text = std::str::from_utf8(pair).ok()?;
        (pair.len() == 2).then(|| u8::from_str_radix(text, 16).ok())?
    };
    let bytes: Option<Vec<u8>> = digits.chunks(2).map(byte).collect();
    bytes.ok_or_else(|| format!("not hexadecimal: {text}"))
}
