//! What happens on a host's slots, in words that a test can compare.

use birkenschuh::{Answered, Refused};

/// A node calls, and is connected.
pub const ACCEPTED: [&str; 2] = ["N > sok N > AwaitsReply", "r > a > Connected"];
/// We call a node, and are connected.
pub const STARTED: [&str; 3] = [
    "sok > AwaitsChallenge",
    "N > r > AwaitsAck",
    "a > Connected",
];

/// A node calls, and closes behind our challenge.
pub const LEFT_BY_CALLER: [&str; 2] = [ACCEPTED[0], "AwaitsReply > end"];
/// We call a node, and it closes behind our reply.
pub const LEFT_BY_CALLED: [&str; 3] = [STARTED[0], STARTED[1], "AwaitsAck > end"];

/// A message, what is written, and how it goes on.
pub fn line(frame: &[u8], output: &[u8], answer: Result<Answered, Refused>) -> String {
    let mut parts = vec![words(frame), words(output), outcome(answer)];
    parts.retain(|it| !it.is_empty());
    parts.join(" > ")
}

/// Of each message its first byte, and of a status its word. Nothing else is told: a digest belongs
/// in no log.
fn words(mut frames: &[u8]) -> String {
    let mut words = Vec::new();
    while let Some((&length, rest)) = frames.split_first_chunk() {
        let (body, rest) = rest.split_at(u16::from_be_bytes(length).into());
        let told = match body {
            [b's', ..] => body.len(),
            _ => 1.min(body.len()),
        };
        words.push(String::from_utf8_lossy(&body[..told]));
        frames = rest;
    }
    words.join(" ")
}

fn outcome(answer: Result<Answered, Refused>) -> String {
    match answer {
        Ok(answered) => match answered.freed {
            Some(other) => format!("{:?}, {other} freed", answered.stage),
            None => format!("{:?}", answered.stage),
        },
        Err(refused) => match refused.slot_freed {
            true => format!("refused {}", refused.refusal.number()),
            false => format!("refused {}, kept", refused.refusal.number()),
        },
    }
}
