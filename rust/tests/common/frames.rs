//! Frames, right and damaged.

use super::rng::Rng;

/// Flags with the bits that 02 requires, and no others.
pub const GOOD_FLAGS: u64 = 0x4_0300_0104;

/// A body behind its length.
pub fn frame(body: &[u8]) -> Vec<u8> {
    let length = u16::try_from(body.len()).expect("a body of at most 65535 bytes");
    [&length.to_be_bytes()[..], body].concat()
}

fn counted(run: &[u8]) -> Vec<u8> {
    frame(run)
}

pub struct Alive2<'a> {
    pub port: u16,
    pub kind: u8,
    pub protocol: u8,
    pub highest: u16,
    pub lowest: u16,
    pub name: &'a [u8],
    pub extra: &'a [u8],
}

impl<'a> Alive2<'a> {
    /// A normal node of today.
    pub fn of(name: &'a [u8]) -> Alive2<'a> {
        Alive2 {
            port: 4370,
            kind: 77,
            protocol: 0,
            highest: 6,
            lowest: 5,
            name,
            extra: b"",
        }
    }

    pub fn frame(&self) -> Vec<u8> {
        let mut body = vec![120];
        body.extend(self.port.to_be_bytes());
        body.extend([self.kind, self.protocol]);
        body.extend(self.highest.to_be_bytes());
        body.extend(self.lowest.to_be_bytes());
        body.extend(counted(self.name));
        body.extend(counted(self.extra));
        frame(&body)
    }
}

pub fn port_please2(name: &[u8]) -> Vec<u8> {
    frame(&[b"z", name].concat())
}

pub fn name_message(flags: u64, creation: u32, name: &[u8]) -> Vec<u8> {
    let fields = [
        &flags.to_be_bytes()[..],
        &creation.to_be_bytes(),
        &counted(name),
    ]
    .concat();
    frame(&[b"N", &fields[..]].concat())
}

pub fn challenge_message(flags: u64, challenge: u32, creation: u32, name: &[u8]) -> Vec<u8> {
    let mut body = b"N".to_vec();
    body.extend(flags.to_be_bytes());
    body.extend(challenge.to_be_bytes());
    body.extend(creation.to_be_bytes());
    body.extend(counted(name));
    frame(&body)
}

pub fn status(word: &[u8]) -> Vec<u8> {
    frame(&[b"s", word].concat())
}

pub fn reply(challenge: u32, digest: [u8; 16]) -> Vec<u8> {
    frame(&[b"r", &challenge.to_be_bytes()[..], &digest].concat())
}

pub fn acknowledgement(digest: [u8; 16]) -> Vec<u8> {
    frame(&[b"a", &digest[..]].concat())
}

/// Writes the length of the body into a frame, if it has room for one.
pub fn mend_length(frame: &mut [u8]) {
    if let Some((length, body)) = frame.split_first_chunk_mut() {
        *length = (body.len() as u16).to_be_bytes();
    }
}

/// Hurt; half the time with the length made right again.
pub fn damage(rng: &mut Rng, frame: &mut Vec<u8>) {
    hurt(rng, frame);
    if rng.chance(50) {
        mend_length(frame);
    }
}

/// Cut, lengthened, or with a few bits turned.
pub fn hurt(rng: &mut Rng, frame: &mut Vec<u8>) {
    match rng.below(6) {
        0 => frame.truncate(rng.below(frame.len() + 1)),
        1 => frame.truncate(frame.len().saturating_sub(1)),
        2 => frame.push(rng.next() as u8),
        3 => {
            let more = rng.below(300);
            frame.extend(rng.bytes(more));
        }
        4 => {
            for _ in 0..1 + rng.below(3) {
                turn_bit(rng, frame);
            }
        }
        _ => {
            // A length somewhere inside: one more or one less.
            if !frame.is_empty() {
                let at = rng.below(frame.len());
                let step = *rng.pick(&[1, 255]);
                frame[at] = frame[at].wrapping_add(step);
            }
        }
    }
}

fn turn_bit(rng: &mut Rng, frame: &mut [u8]) {
    if !frame.is_empty() {
        let at = rng.below(frame.len());
        frame[at] ^= 1 << rng.below(8);
    }
}

/// Bytes of nothing in particular, but often few, or with a right length.
pub fn noise(rng: &mut Rng) -> Vec<u8> {
    let length = match rng.below(4) {
        0 => rng.below(5),
        1 => rng.below(40),
        _ => rng.below(700),
    };
    let mut frame = rng.bytes(length);
    if rng.chance(70) {
        mend_length(&mut frame);
    }
    frame
}
