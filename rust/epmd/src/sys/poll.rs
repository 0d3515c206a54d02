//! Waiting for many descriptors at once.

use std::io;
use std::os::fd::{AsRawFd, FromRawFd, OwnedFd};
use std::os::raw::c_int;
use std::time::Duration;

use super::{check, CLOSE_ON_EXEC};

/// Bytes have come, or the peer has ended.
pub const READABLE: u32 = 0x001;
/// There is room for bytes to be sent.
pub const WRITABLE: u32 = 0x004;
/// The connection has failed. Always reported.
pub const FAILED: u32 = 0x008;
/// The peer will send nothing more.
pub const ENDED: u32 = 0x2000;

const ADD: c_int = 1;
const CHANGE: c_int = 3;

/// A descriptor that is ready: for what, and the token that it was added with.
#[derive(Clone, Copy)]
#[repr(C, packed)]
pub struct Event {
    pub ready: u32,
    pub token: u64,
}

extern "C" {
    fn epoll_create1(flags: c_int) -> c_int;
    fn epoll_ctl(poll: c_int, operation: c_int, fd: c_int, event: *mut Event) -> c_int;
    fn epoll_wait(poll: c_int, events: *mut Event, room: c_int, timeout: c_int) -> c_int;
}

/// Tells which descriptors are ready, again and again for as long as they are (level-triggered).
pub struct Poll(OwnedFd);

impl Poll {
    pub fn new() -> io::Result<Poll> {
        // SAFETY: a new descriptor that nothing else owns.
        Ok(Poll(unsafe {
            OwnedFd::from_raw_fd(check(epoll_create1(CLOSE_ON_EXEC))?)
        }))
    }

    /// From now on `token` tells that `fd` is ready for `interest`. Ends when `fd` is closed.
    pub fn add(&self, fd: &impl AsRawFd, token: u64, interest: u32) -> io::Result<()> {
        self.control(ADD, fd, token, interest)
    }

    pub fn change(&self, fd: &impl AsRawFd, token: u64, interest: u32) -> io::Result<()> {
        self.control(CHANGE, fd, token, interest)
    }

    fn control(&self, how: c_int, fd: &impl AsRawFd, token: u64, ready: u32) -> io::Result<()> {
        let mut event = Event { ready, token };
        // SAFETY: the event is read during the call alone.
        check(unsafe { epoll_ctl(self.0.as_raw_fd(), how, fd.as_raw_fd(), &mut event) }).map(drop)
    }

    /// Waits until something is ready, or `timeout` is over, or a signal came: then nothing is
    /// ready.
    pub fn wait<'a>(
        &self,
        events: &'a mut [Event],
        timeout: Option<Duration>,
    ) -> io::Result<&'a [Event]> {
        // Rounded up: a wait that ends a moment early would be followed by a turn for nothing.
        let timeout = timeout.map_or(-1, |time| {
            c_int::try_from(time.as_micros().div_ceil(1000)).unwrap_or(c_int::MAX)
        });
        let room = c_int::try_from(events.len()).unwrap_or(c_int::MAX);
        // SAFETY: `events` has room for as many as are asked for.
        match check(unsafe { epoll_wait(self.0.as_raw_fd(), events.as_mut_ptr(), room, timeout) }) {
            Ok(count) => Ok(&events[..count as usize]),
            Err(error) if error.kind() == io::ErrorKind::Interrupted => Ok(&[]),
            Err(error) => Err(error),
        }
    }
}
