//! What the standard library lacks of the operating system: epoll, signals as a descriptor, socket
//! settings, limits. The only unsafe code of this program. The constants and layouts are those of
//! Linux on x86-64, as the library below is.

mod limits;
mod poll;
mod signals;
mod socket;

pub use limits::{lock, raise_file_limit};
pub use poll::{Event, Poll, ENDED, FAILED, READABLE, WRITABLE};
pub use signals::{Signal, Signals};
pub use socket::{accept, handed_over, keep_alive, listener, send_last, Keepalive};

use std::io;
use std::os::raw::c_int;

const CLOSE_ON_EXEC: c_int = 0o2_000_000;
const NON_BLOCKING: c_int = 0o4_000;

fn check(result: c_int) -> io::Result<c_int> {
    match result {
        -1 => Err(io::Error::last_os_error()),
        result => Ok(result),
    }
}
