//! Creations that are reserved on disk, ahead of their use and by a thread of its own: a disk takes
//! its time, and nobody but a registration that finds none reserved has to wait for it.

use std::io;
use std::path::Path;
use std::sync::mpsc::{channel, Receiver, Sender, TryRecvError};
use std::thread;
use std::time::{Duration, Instant};

use crate::creations::{after, distance, later, May};
use crate::mark::{Lock, Mark};

/// How many numbers are reserved at a time. A crash spends what is left of them, as much as the
/// clock does in 16 s.
pub const BLOCK: u32 = 16_384;
/// Fewer than these left, and the next block is reserved: a disk that fails is told of while there
/// are still numbers to give.
const LOW: u32 = BLOCK / 2;
/// How long a disk that failed is left alone.
pub const PATIENCE: Duration = Duration::from_secs(1);
/// How soon a registration that waits for the disk is looked at again.
const BREATH: Duration = Duration::from_millis(1);

pub struct Reserved {
    /// The mark on disk: numbers before it may be given.
    until: u32,
    /// What the mark is going to be.
    asked: Option<u32>,
    again: Option<Instant>,
    marks: Sender<u32>,
    outcomes: Receiver<io::Result<()>>,
    _lock: Lock,
}

impl Reserved {
    /// The mark in `folder`, and the number to start from: the mark, or `first` if that is ahead.
    pub fn open(folder: &Path, first: u32) -> io::Result<(Reserved, u32)> {
        let (mark, lock, number) = Mark::open(folder)?;
        let next = number.map_or(first, |number| later(number, first));
        let until = after(next, BLOCK);
        mark.write(until)?;
        let ((marks, asked), (tell, outcomes)) = (channel(), channel());
        thread::Builder::new()
            .name("mark".to_string())
            .stack_size(128 << 10)
            .spawn(move || write_all(&mark, &asked, &tell))?;
        let reserved = Reserved {
            until,
            asked: None,
            again: None,
            marks,
            outcomes,
            _lock: lock,
        };
        Ok((reserved, next))
    }

    /// Whether `next` may be given. An error is one of the disk, to be told once.
    pub fn may_give(&mut self, next: u32, now: Instant) -> (May, Option<io::Error>) {
        if distance(next, self.until) >= LOW {
            return (May::Now, None);
        }
        let error = self.take_outcome(now).err();
        let left = distance(next, self.until);
        let rests = self.again.is_some_and(|time| now < time);
        if left < LOW && self.asked.is_none() && !rests {
            self.ask(after(next, BLOCK));
        }
        let may = match (left, self.asked) {
            (0, Some(_)) => May::Later(now + BREATH),
            (0, None) => May::Never,
            _ => May::Now,
        };
        (may, error)
    }

    fn ask(&mut self, mark: u32) {
        if self.marks.send(mark).is_ok() {
            self.asked = Some(mark);
        }
    }

    /// What has become of the mark that was asked for.
    fn take_outcome(&mut self, now: Instant) -> io::Result<()> {
        let Some(mark) = self.asked else {
            return Ok(());
        };
        let outcome = match self.outcomes.try_recv() {
            Ok(outcome) => outcome,
            Err(TryRecvError::Empty) => return Ok(()),
            Err(TryRecvError::Disconnected) => Err(io::Error::other("the mark's thread has ended")),
        };
        self.asked = None;
        match outcome {
            Ok(()) => (self.until, self.again) = (mark, None),
            Err(_) => self.again = Some(now + PATIENCE),
        }
        outcome
    }

    /// The mark falls back to `next`, so that numbers reserved and not given are not spent. Waits
    /// for the disk, but no longer than it may take.
    pub fn end(&mut self, next: u32) -> io::Result<()> {
        let _ = self.finish();
        self.ask(next);
        self.finish()
    }

    /// Waits until the disk has done what was asked for.
    fn finish(&mut self) -> io::Result<()> {
        match self.asked.take() {
            Some(_) => self
                .outcomes
                .recv_timeout(PATIENCE)
                .unwrap_or_else(|_| Err(io::Error::other("the disk takes too long"))),
            None => Ok(()),
        }
    }
}

impl Drop for Reserved {
    fn drop(&mut self) {
        let _ = self.finish();
    }
}

/// Writes each mark that is asked for, until nobody asks any more.
fn write_all(mark: &Mark, asked: &Receiver<u32>, tell: &Sender<io::Result<()>>) {
    for number in asked {
        if tell.send(mark.write(number)).is_err() {
            return;
        }
    }
}
