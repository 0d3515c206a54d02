//! Frames out of a stream of bytes, in bounded memory.

use std::io::{self, Read};

/// What a connection may hold without asking the budget. The longest request that is ever answered
/// has 398 bytes (an ALIVE2 with 255 bytes of name and 128 of extra); all longer frames are
/// assembled only to be refused.
pub const SMALL: usize = 512;

/// Bytes that all connections together may hold beyond their own small buffers, in long frames and
/// in replies that a peer has not taken. Who asks for more than is left is closed, so the sum is
/// bounded whatever the peers do.
pub struct Budget {
    left: usize,
}

impl Budget {
    pub fn new(bytes: usize) -> Budget {
        Budget { left: bytes }
    }

    /// Whether `bytes` were left; then they are taken.
    pub fn take(&mut self, bytes: usize) -> bool {
        let enough = bytes <= self.left;
        if enough {
            self.left -= bytes;
        }
        enough
    }

    pub fn give_back(&mut self, bytes: usize) {
        self.left += bytes;
    }
}

/// What reading has given.
#[derive(Debug, PartialEq, Eq)]
pub enum Filled {
    Some,
    /// Nothing has come yet.
    Nothing,
    /// The peer has ended.
    End,
    /// A long frame, and the budget is spent.
    NoMemory,
}

/// The bytes that have come and are not yet answered.
#[derive(Default)]
pub struct Input {
    buffer: Vec<u8>,
    filled: usize,
}

impl Input {
    /// The frame at the front, with its two length bytes, if it is whole.
    pub fn frame(&self) -> Option<&[u8]> {
        self.buffer[..self.filled].get(..self.announced()?)
    }

    /// How long the frame at the front is, once that has come.
    fn announced(&self) -> Option<usize> {
        match self.buffer[..self.filled] {
            [high, low, ..] => Some(2 + usize::from(u16::from_be_bytes([high, low]))),
            _ => None,
        }
    }

    pub fn is_empty(&self) -> bool {
        self.filled == 0
    }

    /// One read. Call it when no whole frame is at the front.
    pub fn fill(&mut self, source: &mut impl Read, budget: &mut Budget) -> io::Result<Filled> {
        if !self.make_room(budget) {
            return Ok(Filled::NoMemory);
        }
        loop {
            match source.read(&mut self.buffer[self.filled..]) {
                Ok(0) => return Ok(Filled::End),
                Ok(count) => {
                    self.filled += count;
                    return Ok(Filled::Some);
                }
                Err(error) if error.kind() == io::ErrorKind::WouldBlock => {
                    return Ok(Filled::Nothing)
                }
                Err(error) if error.kind() == io::ErrorKind::Interrupted => {}
                Err(error) => return Err(error),
            }
        }
    }

    /// The buffer doubles as bytes come, up to the frame announced: a peer that announces much and
    /// sends little holds little.
    fn make_room(&mut self, budget: &mut Budget) -> bool {
        let now = self.buffer.len();
        if self.filled < now {
            return true;
        }
        let frame = self.announced().unwrap_or(0).max(SMALL);
        let next = (2 * now).clamp(SMALL, frame);
        let enough = budget.take(next.max(SMALL) - now.max(SMALL));
        if enough {
            self.buffer.reserve_exact(next - now);
            self.buffer.resize(next, 0);
        }
        enough
    }

    /// The frame at the front is answered. What stands behind it moves up, and a long buffer is
    /// given back.
    pub fn drop_frame(&mut self, budget: &mut Budget) {
        let Some(frame) = self.frame().map(<[u8]>::len) else {
            return;
        };
        self.buffer.copy_within(frame..self.filled, 0);
        self.filled -= frame;
        budget.give_back(self.borrowed());
        self.buffer.truncate(SMALL);
        self.buffer.shrink_to_fit();
    }

    /// What this buffer has of the budget.
    pub fn borrowed(&self) -> usize {
        self.buffer.len().saturating_sub(SMALL)
    }
}

#[cfg(test)]
mod tests {
    use super::*;

    /// Gives so many bytes a read, then "nothing yet".
    struct Drip<'a>(&'a [u8], usize);

    impl Read for Drip<'_> {
        fn read(&mut self, into: &mut [u8]) -> io::Result<usize> {
            if self.0.is_empty() {
                return Err(io::ErrorKind::WouldBlock.into());
            }
            let count = self.1.min(into.len()).min(self.0.len());
            let (now, later) = self.0.split_at(count);
            into[..count].copy_from_slice(now);
            self.0 = later;
            Ok(count)
        }
    }

    fn long_frame() -> Vec<u8> {
        let mut frame = vec![0xff, 0xff];
        frame.resize(65_537, b'x');
        frame
    }

    #[test]
    fn a_frame_is_whole_with_its_last_byte() {
        let mut source = Drip(b"\x00\x05zride", 1);
        let (mut input, mut budget) = (Input::default(), Budget::new(0));
        for _ in 0..6 {
            assert_eq!(input.fill(&mut source, &mut budget).unwrap(), Filled::Some);
            assert_eq!(input.frame(), None);
        }
        assert_eq!(input.fill(&mut source, &mut budget).unwrap(), Filled::Some);
        assert_eq!(input.frame(), Some(&b"\x00\x05zride"[..]));
        assert_eq!(
            input.fill(&mut source, &mut budget).unwrap(),
            Filled::Nothing
        );
    }

    #[test]
    fn bytes_behind_a_frame_are_the_next_frame() {
        let (mut input, mut budget) = (Input::default(), Budget::new(0));
        let mut source = Drip(b"\x00\x01n\x00\x00\x00\x02zz\x00", 99);
        input.fill(&mut source, &mut budget).unwrap();
        for frame in [&b"\x00\x01n"[..], b"\x00\x00", b"\x00\x02zz"] {
            assert_eq!(input.frame(), Some(frame));
            input.drop_frame(&mut budget);
        }
        assert_eq!(input.frame(), None);
        assert!(!input.is_empty());
    }

    #[test]
    fn the_longest_frame_is_assembled_and_its_memory_given_back() {
        let frame = long_frame();
        let (mut input, mut budget) = (Input::default(), Budget::new(70_000));
        let mut source = Drip(&frame, 1000);
        while input.frame().is_none() {
            assert_eq!(input.fill(&mut source, &mut budget).unwrap(), Filled::Some);
            assert!(input.buffer.capacity() <= frame.len());
        }
        assert_eq!(input.frame(), Some(&frame[..]));
        assert_eq!(budget.left, 70_000 - (frame.len() - SMALL));
        input.drop_frame(&mut budget);
        assert_eq!(budget.left, 70_000);
        assert_eq!(input.buffer.capacity(), SMALL);
        assert!(input.is_empty());
    }

    #[test]
    fn a_long_frame_takes_memory_as_its_bytes_come() {
        let frame = long_frame();
        let (mut input, mut budget) = (Input::default(), Budget::new(70_000));
        for (come, held) in [(6, SMALL), (512, SMALL), (513, 1024), (1025, 2048)] {
            let mut source = Drip(&frame[input.filled..come], 65_537);
            while input.fill(&mut source, &mut budget).unwrap() == Filled::Some {
                if source.0.is_empty() {
                    break;
                }
            }
            assert_eq!((input.filled, input.buffer.capacity()), (come, held));
        }
    }

    #[test]
    fn a_long_frame_ends_where_the_budget_does() {
        let frame = long_frame();
        let (mut input, mut budget) = (Input::default(), Budget::new(10_000));
        let mut source = Drip(&frame, 65_537);
        let end = loop {
            match input.fill(&mut source, &mut budget).unwrap() {
                Filled::Some => {}
                other => break other,
            }
        };
        assert_eq!(end, Filled::NoMemory);
        assert_eq!(budget.left + input.borrowed(), 10_000);
        assert!(input.borrowed() > 0);
    }

    #[test]
    fn the_end_is_told() {
        let (mut input, mut budget) = (Input::default(), Budget::new(0));
        let end = input.fill(&mut io::empty(), &mut budget).unwrap();
        assert_eq!(end, Filled::End);
    }
}
