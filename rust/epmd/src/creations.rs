//! Which creation comes next, and when it may be given: none comes again, over restarts and crashes
//! too. The registry counts for itself; this is ahead of it.

use std::io;
use std::path::Path;
use std::time::{Duration, Instant};

use crate::reserve::Reserved;

/// By the clock alone, so long for each number: the clock counts milliseconds.
const TICK: Duration = Duration::from_millis(1);

pub struct Creations {
    next: u32,
    source: Source,
}

/// What makes the next number one that was never given.
enum Source {
    /// It is before the mark on disk.
    Reserved(Reserved),
    /// The clock has passed it, so a later start is ahead of it.
    Clock { start: Instant, given: u32 },
    /// The operator says so.
    Operator,
}

/// Whether a number may be given.
#[derive(Debug, PartialEq, Eq)]
pub enum May {
    Now,
    Later(Instant),
    /// None is reserved, and the disk has failed.
    Never,
}

impl Creations {
    /// By a mark in `folder`, from the greater of the mark and `first`.
    pub fn marked(folder: &Path, first: u32) -> io::Result<Creations> {
        let (reserved, next) = Reserved::open(folder, first)?;
        Ok(Creations {
            next,
            source: Source::Reserved(reserved),
        })
    }

    /// By the clock alone, which said `first` at `start`.
    pub fn by_clock(first: u32, start: Instant) -> Creations {
        Creations {
            next: first,
            source: Source::Clock { start, given: 0 },
        }
    }

    pub fn by_operator(first: u32) -> Creations {
        Creations {
            next: first,
            source: Source::Operator,
        }
    }

    pub fn next(&self) -> u32 {
        self.next
    }

    /// Whether the next number may be given. An error is one of the disk, to be told once.
    pub fn may_give(&mut self, now: Instant) -> (May, Option<io::Error>) {
        match &mut self.source {
            Source::Operator => (May::Now, None),
            Source::Clock { start, given } => match *start + TICK * given.saturating_add(1) {
                time if time <= now => (May::Now, None),
                time => (May::Later(time), None),
            },
            Source::Reserved(reserved) => reserved.may_give(self.next, now),
        }
    }

    /// The next number is given: to be called where `may_give` has allowed it.
    pub fn give(&mut self) -> u32 {
        let given = self.next;
        self.next = after(given, 1);
        match &mut self.source {
            Source::Operator | Source::Reserved(_) => {}
            Source::Clock { given, .. } => *given = given.saturating_add(1),
        }
        given
    }

    /// The end: numbers that were reserved and not given are free again.
    pub fn end(&mut self) -> io::Result<()> {
        match &mut self.source {
            Source::Reserved(reserved) => reserved.end(self.next),
            _ => Ok(()),
        }
    }
}

/// Where to start: by the mark, or by the clock if it is ahead of the mark. The numbers come round,
/// so the shorter way decides which of two is ahead.
pub fn later(mark: u32, clock: u32) -> u32 {
    let ahead = distance(mark, clock);
    if ahead < u32::MAX / 2 {
        clock
    } else {
        mark
    }
}

/// How many steps lead from one number to the other.
pub fn distance(from: u32, to: u32) -> u32 {
    match to.checked_sub(from) {
        Some(steps) => steps,
        None => u32::MAX - (from - to),
    }
}

/// So many steps on: 4,294,967,295 is followed by 1, as in the registry.
pub fn after(number: u32, steps: u32) -> u32 {
    match number.checked_add(steps) {
        Some(sum) => sum,
        None => steps - (u32::MAX - number),
    }
}

#[cfg(test)]
#[path = "creations_tests.rs"]
mod tests;
