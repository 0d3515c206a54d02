//! Signals as a descriptor, so that the wait for sockets sees them too and none is lost.

use std::fs::File;
use std::io::{self, Read};
use std::mem::MaybeUninit;
use std::os::fd::{AsRawFd, FromRawFd};
use std::os::raw::c_int;

use super::{check, CLOSE_ON_EXEC, NON_BLOCKING};

const SIG_BLOCK: c_int = 0;
const SIGHUP: c_int = 1;
const SIGINT: c_int = 2;
const SIGTERM: c_int = 15;

/// glibc's `sigset_t`.
#[repr(C)]
struct SignalSet([u64; 16]);

extern "C" {
    fn sigemptyset(set: *mut SignalSet) -> c_int;
    fn sigaddset(set: *mut SignalSet, signal: c_int) -> c_int;
    fn sigprocmask(how: c_int, set: *const SignalSet, old: *mut SignalSet) -> c_int;
    fn signalfd(fd: c_int, set: *const SignalSet, flags: c_int) -> c_int;
}

/// A signal that came.
#[derive(Debug, PartialEq, Eq)]
pub enum Signal {
    /// It asks for the end; its name.
    End(&'static str),
    /// There is nothing to be read anew.
    Hangup,
}

/// SIGTERM, SIGINT and SIGHUP. They no longer end the process.
pub struct Signals(File);

impl Signals {
    /// Threads that are started after this leave the signals alone too.
    pub fn new() -> io::Result<Signals> {
        let mut set = MaybeUninit::<SignalSet>::uninit();
        // SAFETY: sigemptyset fills the set before it is read; the descriptor is new and owned by
        // nothing else.
        unsafe {
            check(sigemptyset(set.as_mut_ptr()))?;
            for signal in [SIGTERM, SIGINT, SIGHUP] {
                check(sigaddset(set.as_mut_ptr(), signal))?;
            }
            check(sigprocmask(SIG_BLOCK, set.as_ptr(), std::ptr::null_mut()))?;
            let fd = check(signalfd(-1, set.as_ptr(), CLOSE_ON_EXEC | NON_BLOCKING))?;
            Ok(Signals(File::from_raw_fd(fd)))
        }
    }

    pub fn take(&mut self) -> Option<Signal> {
        let mut record = [0; 128];
        self.0.read_exact(&mut record).ok()?;
        match c_int::from_ne_bytes([record[0], record[1], record[2], record[3]]) {
            SIGINT => Some(Signal::End("SIGINT")),
            SIGHUP => Some(Signal::Hangup),
            _ => Some(Signal::End("SIGTERM")),
        }
    }
}

impl AsRawFd for Signals {
    fn as_raw_fd(&self) -> c_int {
        self.0.as_raw_fd()
    }
}
