//! What the tests need of the operating system and the standard library lacks.

use std::os::fd::AsRawFd;
use std::os::raw::c_int;

const RLIMIT_NOFILE: c_int = 7;
const F_SETPIPE_SZ: c_int = 1031;
const F_SETFD: c_int = 2;

#[repr(C)]
struct Limit {
    soft: u64,
    hard: u64,
}

extern "C" {
    fn prlimit(id: c_int, resource: c_int, new: *const Limit, old: *mut Limit) -> c_int;
    fn fcntl(fd: c_int, command: c_int, ...) -> c_int;
    fn dup2(fd: c_int, new: c_int) -> c_int;
}

/// Gives a descriptor another number, under which a program started by `exec` finds it.
pub fn become_descriptor(fd: c_int, number: c_int) -> std::io::Result<()> {
    if fd == number {
        // SAFETY: no memory is passed. The descriptor is to stay open in the program started.
        return result(unsafe { fcntl(fd, F_SETFD, 0) });
    }
    // SAFETY: no memory is passed.
    result(unsafe { dup2(fd, number) })
}

pub fn result(result: c_int) -> std::io::Result<()> {
    match result {
        -1 => Err(std::io::Error::last_os_error()),
        _ => Ok(()),
    }
}

/// How many bytes wait in a pipe until its writer has to.
pub fn set_pipe_size(pipe: &impl AsRawFd, bytes: c_int) {
    // SAFETY: no memory is passed.
    let result = unsafe { fcntl(pipe.as_raw_fd(), F_SETPIPE_SZ, bytes) };
    assert!(result >= 0, "{}", std::io::Error::last_os_error());
}

/// Lets a running process open no more than so many files.
pub fn limit_files(id: u32, files: u64) {
    let limit = Limit {
        soft: files,
        hard: files,
    };
    // SAFETY: the limit is read during the call alone.
    let result = unsafe { prlimit(id as c_int, RLIMIT_NOFILE, &limit, std::ptr::null_mut()) };
    assert_eq!(result, 0, "prlimit: {}", std::io::Error::last_os_error());
}

/// Lets this process open as many files as it ever may: a crowd needs some thousands.
pub fn raise_file_limit() {
    let mut limit = Limit { soft: 0, hard: 0 };
    // SAFETY: the limit is written, and then read, during the calls alone.
    unsafe {
        prlimit(0, RLIMIT_NOFILE, std::ptr::null(), &mut limit);
        limit.soft = limit.hard;
        prlimit(0, RLIMIT_NOFILE, &limit, std::ptr::null_mut());
    }
}
