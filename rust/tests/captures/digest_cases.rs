//! What the program `digest_cases` prints: a line for each digest, with its challenge and cookie.

use std::collections::HashSet;

use crate::common::{from_hex, number, to_hex};
use crate::exchange::{replied, Digest};
use crate::read;

fn printed() -> String {
    read("../crates/digest_cases/stdout")
}

fn line(challenge: u32, cookie: &[u8], digest: [u8; 16]) -> String {
    format!("{challenge} {} {}", to_hex(cookie), to_hex(&digest))
}

#[test]
fn each_line_is_what_the_model_gives() {
    for printed in printed().lines() {
        let words: Vec<&str> = printed.split(' ').collect();
        let [challenge, cookie, _] = words[..] else {
            panic!("not a line of three words: {printed}");
        };
        let (challenge, cookie) = (number(challenge).unwrap(), from_hex(cookie).unwrap());
        let digest = model::digest(challenge, &cookie);
        assert_eq!(printed, line(challenge, &cookie, digest));
    }
}

#[test]
fn each_digest_of_the_captures_has_a_line() {
    let printed = printed();
    let lines: HashSet<&str> = printed.lines().collect();
    for seen in replied() {
        for Digest {
            challenge,
            cookie,
            digest,
        } in seen.digests()
        {
            let line = line(challenge, cookie, digest);
            assert!(lines.contains(&line[..]), "{}: {line}", seen.file);
        }
    }
}
