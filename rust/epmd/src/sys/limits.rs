//! How many files this process may open, and a file that one process has for itself.

use std::fs::File;
use std::io;
use std::os::fd::AsRawFd;
use std::os::raw::c_int;

use super::check;

const RLIMIT_NOFILE: c_int = 7;
const LOCK_EX: c_int = 2;
const LOCK_NB: c_int = 4;

#[repr(C)]
struct Limit {
    soft: u64,
    hard: u64,
}

extern "C" {
    fn getrlimit(resource: c_int, limit: *mut Limit) -> c_int;
    fn setrlimit(resource: c_int, limit: *const Limit) -> c_int;
    fn flock(fd: c_int, operation: c_int) -> c_int;
}

/// Lets this process open at least `files` files at once. How many it may open, if it may not open
/// as many.
pub fn raise_file_limit(files: u64) -> io::Result<Result<(), u64>> {
    let mut limit = Limit { soft: 0, hard: 0 };
    // SAFETY: the limit is written during the call alone.
    check(unsafe { getrlimit(RLIMIT_NOFILE, &mut limit) })?;
    if limit.soft >= files {
        return Ok(Ok(()));
    }
    if limit.hard < files {
        return Ok(Err(limit.hard));
    }
    limit.soft = files;
    // SAFETY: the limit is read during the call alone.
    check(unsafe { setrlimit(RLIMIT_NOFILE, &limit) })?;
    Ok(Ok(()))
}

/// Whether no other process has locked the file; then this one has, until the file is closed.
pub fn lock(file: &File) -> io::Result<bool> {
    // SAFETY: no memory is passed.
    match check(unsafe { flock(file.as_raw_fd(), LOCK_EX | LOCK_NB) }) {
        Ok(_) => Ok(true),
        Err(error) if error.kind() == io::ErrorKind::WouldBlock => Ok(false),
        Err(error) => Err(error),
    }
}
