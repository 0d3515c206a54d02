//! Log lines leave by a thread of their own, so that a reader that stops stops nothing but the log.
//! What waits for it is bounded; lines that do not fit are dropped and counted.

use std::fs::File;
use std::io::{self, Write};
use std::os::fd::AsFd;
use std::sync::{Arc, Condvar, Mutex, MutexGuard, PoisonError};
use std::thread;
use std::time::Duration;

/// Bytes of lines that may wait.
const ROOM: usize = 64 << 10;
/// How long to wait for a reader of a pipe that somebody made non-blocking.
const BREATH: Duration = Duration::from_millis(10);

pub struct Writer {
    shared: Arc<Shared>,
}

struct Shared {
    state: Mutex<State>,
    /// There is something to write, or nothing is left to write.
    changed: Condvar,
}

#[derive(Default)]
struct State {
    waiting: Vec<u8>,
    /// Lines that were dropped since the last that were told.
    dropped: u64,
    writing: bool,
}

impl Shared {
    fn state(&self) -> MutexGuard<'_, State> {
        self.state.lock().unwrap_or_else(PoisonError::into_inner)
    }
}

impl Writer {
    /// Writes to standard output. `tell` is the line about so many that were dropped.
    pub fn to_stdout(tell: impl Fn(u64) -> String + Send + 'static) -> io::Result<Writer> {
        let stdout = io::stdout().as_fd().try_clone_to_owned()?;
        Writer::new(File::from(stdout), tell)
    }

    pub fn new(
        into: impl Write + Send + 'static,
        tell: impl Fn(u64) -> String + Send + 'static,
    ) -> io::Result<Writer> {
        let shared = Arc::new(Shared {
            state: Mutex::default(),
            changed: Condvar::new(),
        });
        let writer = Writer {
            shared: Arc::clone(&shared),
        };
        thread::Builder::new()
            .name("log".to_string())
            .stack_size(64 << 10)
            .spawn(move || run(&shared, into, tell))?;
        Ok(writer)
    }

    /// Never waits for the reader. A line that does not fit is counted.
    pub fn push(&self, line: &str) {
        if !self.offer(line) {
            self.shared.state().dropped += 1;
        }
    }

    /// Whether the line fits.
    pub fn offer(&self, line: &str) -> bool {
        let mut state = self.shared.state();
        let fits = state.waiting.len() + line.len() <= ROOM;
        if fits {
            state.waiting.extend_from_slice(line.as_bytes());
            drop(state);
            self.shared.changed.notify_all();
        }
        fits
    }

    /// Waits until all is written, but not for longer than `time`.
    pub fn flush(&self, time: Duration) {
        let busy = |state: &mut State| state.writing || !state.waiting.is_empty();
        let state = self.shared.state();
        let _ = self.shared.changed.wait_timeout_while(state, time, busy);
    }
}

fn run(shared: &Shared, mut into: impl Write, tell: impl Fn(u64) -> String) {
    let mut lines = Vec::new();
    let mut state = shared.state();
    loop {
        state = shared
            .changed
            .wait_while(state, |state| state.waiting.is_empty())
            .unwrap_or_else(PoisonError::into_inner);
        // Both buffers are used again and again.
        std::mem::swap(&mut state.waiting, &mut lines);
        let dropped = std::mem::take(&mut state.dropped);
        state.writing = true;
        drop(state);
        if dropped > 0 {
            lines.extend_from_slice(tell(dropped).as_bytes());
        }
        let lost = write(&mut into, &lines);
        lines.clear();
        state = shared.state();
        state.writing = false;
        state.dropped += lost;
        shared.changed.notify_all();
    }
}

/// Writes all, or as much as can be: how many lines cannot.
fn write(into: &mut impl Write, lines: &[u8]) -> u64 {
    let mut rest = lines;
    while !rest.is_empty() {
        match into.write(rest) {
            Ok(count) if count > 0 => rest = &rest[count..],
            Err(error) if error.kind() == io::ErrorKind::Interrupted => {}
            Err(error) if error.kind() == io::ErrorKind::WouldBlock => thread::sleep(BREATH),
            _ => return rest.iter().filter(|&&byte| byte == b'\n').count() as u64,
        }
    }
    0
}

#[cfg(test)]
mod tests {
    use super::*;
    use std::io::{BufRead, BufReader};
    use std::os::unix::net::UnixStream;

    fn tell(count: u64) -> String {
        format!("dropped {count}\n")
    }

    /// A reader that stops: the pushes return, and each line is read or counted in the end.
    #[test]
    fn lines_that_do_not_fit_are_dropped_and_counted() {
        const LINES: u64 = 20_000;
        let (reader, into) = UnixStream::pair().unwrap();
        let writer = Writer::new(into, tell).unwrap();
        let line = format!("{}\n", "x".repeat(99));
        for _ in 0..LINES {
            writer.push(&line);
        }
        writer.flush(Duration::from_millis(50));
        let (mut read, mut dropped) = (0, 0);
        for line in BufReader::new(reader).lines().map_while(Result::ok) {
            match line.strip_prefix("dropped ") {
                Some(count) => dropped += count.parse::<u64>().unwrap(),
                None => read += 1,
            }
            if read + dropped == LINES {
                break;
            }
        }
        assert!(dropped > LINES / 2, "{dropped}");
    }

    #[test]
    fn lines_leave_in_their_order_and_a_flush_waits_for_them() {
        let (reader, into) = UnixStream::pair().unwrap();
        let writer = Writer::new(into, tell).unwrap();
        for at in 0..100 {
            writer.push(&format!("{at}\n"));
        }
        writer.flush(Duration::from_secs(20));
        reader.set_nonblocking(true).unwrap();
        let lines = BufReader::new(reader).lines().map_while(Result::ok);
        let wanted: Vec<String> = (0..100).map(|at| at.to_string()).collect();
        assert_eq!(lines.collect::<Vec<_>>(), wanted);
    }
}
