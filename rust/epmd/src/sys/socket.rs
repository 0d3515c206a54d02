//! Sockets: listening, accepting, settings.

use std::io;
use std::net::{IpAddr, SocketAddr, TcpListener, TcpStream};
use std::os::fd::{AsRawFd, FromRawFd};
use std::os::raw::{c_int, c_void};

use super::{check, CLOSE_ON_EXEC, NON_BLOCKING};

const AF_INET: u16 = 2;
const AF_INET6: u16 = 10;
/// The longest address: family 2, port 2, flow 4, address 16, scope 4. IPv4: family 2, port 2,
/// address 4, and 8 more.
const SOCKADDR_IN: usize = 16;
const SOCKADDR_IN6: usize = 28;
const SOCK_STREAM: c_int = 1;
const SOL_SOCKET: c_int = 1;
const SO_REUSEADDR: c_int = 2;
const SO_SNDBUF: c_int = 7;
const SO_RCVBUF: c_int = 8;
const SO_KEEPALIVE: c_int = 9;
const SO_ACCEPTCONN: c_int = 30;
const IPPROTO_TCP: c_int = 6;
const TCP_KEEPIDLE: c_int = 4;
const TCP_KEEPINTVL: c_int = 5;
const TCP_KEEPCNT: c_int = 6;
const IPPROTO_IPV6: c_int = 41;
const IPV6_V6ONLY: c_int = 26;
const MSG_NOSIGNAL: c_int = 0x4000;
const MSG_MORE: c_int = 0x8000;
const F_SETFD: c_int = 2;
const FD_CLOEXEC: c_int = 1;

/// How many may wait to be accepted: with the 128 of the standard library, a burst above them would
/// meet retries of a second. The system's own bound still holds.
const BACKLOG: c_int = 4096;
/// What the system holds for a connection, each way. The longest reply has 17,604 bytes. Beyond
/// this a peer that does not read is held back, and not the memory of this machine.
const BUFFERS: c_int = 32 << 10;
/// The first socket that a starter hands over (sd_listen_fds).
const FIRST_HANDED_OVER: c_int = 3;

extern "C" {
    fn socket(family: c_int, kind: c_int, protocol: c_int) -> c_int;
    fn bind(fd: c_int, address: *const c_void, len: u32) -> c_int;
    fn listen(fd: c_int, backlog: c_int) -> c_int;
    fn accept4(fd: c_int, address: *mut c_void, len: *mut u32, flags: c_int) -> c_int;
    fn send(fd: c_int, bytes: *const c_void, len: usize, flags: c_int) -> isize;
    fn setsockopt(fd: c_int, level: c_int, name: c_int, value: *const c_void, len: u32) -> c_int;
    fn getsockopt(fd: c_int, level: c_int, name: c_int, value: *mut c_void, len: *mut u32)
        -> c_int;
    fn fcntl(fd: c_int, command: c_int, ...) -> c_int;
}

/// Listens at an address. `::` takes IPv4 too, whatever the system's default is; every other
/// address is taken alone.
pub fn listener(address: SocketAddr, times: Keepalive) -> io::Result<TcpListener> {
    let family = c_int::from(family(address));
    let kind = SOCK_STREAM | CLOSE_ON_EXEC | NON_BLOCKING;
    // SAFETY: a new descriptor that nothing else owns.
    let socket = unsafe { TcpListener::from_raw_fd(check(socket(family, kind, 0))?) };
    set_option(&socket, SOL_SOCKET, SO_REUSEADDR, 1)?;
    if let IpAddr::V6(ip) = address.ip() {
        let alone = c_int::from(!ip.is_unspecified());
        set_option(&socket, IPPROTO_IPV6, IPV6_V6ONLY, alone)?;
    }
    let (bytes, length) = raw_address(address);
    // SAFETY: the address is read during the call alone, with its own length.
    check(unsafe { bind(socket.as_raw_fd(), bytes.as_ptr().cast(), length) })?;
    prepare(&socket, times)?;
    Ok(socket)
}

/// The sockets that the starter of this process listens with on its behalf.
pub fn handed_over(count: u16, times: Keepalive) -> io::Result<Vec<TcpListener>> {
    let take = |at: u16| {
        let fd = FIRST_HANDED_OVER + c_int::from(at);
        // SAFETY: by the protocol these descriptors belong to this process from its start on, and
        // they are taken once.
        let socket = unsafe { TcpListener::from_raw_fd(fd) };
        if get_option(&socket, SOL_SOCKET, SO_ACCEPTCONN)? == 0 {
            return Err(io::Error::other("it does not listen"));
        }
        // SAFETY: no memory is passed.
        check(unsafe { fcntl(fd, F_SETFD, FD_CLOEXEC) })?;
        socket.set_nonblocking(true)?;
        prepare(&socket, times)?;
        Ok(socket)
    };
    (0..count).map(take).collect()
}

/// What is set here holds for each connection that is accepted.
fn prepare(socket: &TcpListener, times: Keepalive) -> io::Result<()> {
    set_option(socket, SOL_SOCKET, SO_SNDBUF, BUFFERS)?;
    set_option(socket, SOL_SOCKET, SO_RCVBUF, BUFFERS)?;
    set_option(socket, IPPROTO_TCP, TCP_KEEPIDLE, times.idle.into())?;
    set_option(socket, IPPROTO_TCP, TCP_KEEPINTVL, times.interval.into())?;
    set_option(socket, IPPROTO_TCP, TCP_KEEPCNT, times.count.into())?;
    // SAFETY: no memory is passed.
    check(unsafe { listen(socket.as_raw_fd(), BACKLOG) }).map(drop)
}

fn family(address: SocketAddr) -> u16 {
    match address {
        SocketAddr::V4(_) => AF_INET,
        SocketAddr::V6(_) => AF_INET6,
    }
}

fn raw_address(address: SocketAddr) -> ([u8; SOCKADDR_IN6], u32) {
    let mut bytes = [0; SOCKADDR_IN6];
    bytes[..2].copy_from_slice(&family(address).to_ne_bytes());
    bytes[2..4].copy_from_slice(&address.port().to_be_bytes());
    let length = match address {
        SocketAddr::V4(it) => {
            bytes[4..8].copy_from_slice(&it.ip().octets());
            SOCKADDR_IN
        }
        SocketAddr::V6(it) => {
            bytes[8..24].copy_from_slice(&it.ip().octets());
            SOCKADDR_IN6
        }
    };
    (bytes, length as u32)
}

/// A connection that blocks nobody, in one call where the standard library needs two.
pub fn accept(listener: &TcpListener) -> io::Result<(TcpStream, SocketAddr)> {
    let mut address = [0u8; SOCKADDR_IN6];
    let mut length = SOCKADDR_IN6 as u32;
    let into = address.as_mut_ptr().cast();
    let flags = CLOSE_ON_EXEC | NON_BLOCKING;
    // SAFETY: no more than `length` bytes are written; the descriptor is new and owned by nothing
    // else.
    let stream = unsafe {
        let fd = check(accept4(listener.as_raw_fd(), into, &mut length, flags))?;
        TcpStream::from_raw_fd(fd)
    };
    let port = u16::from_be_bytes([address[2], address[3]]);
    let ip = match u16::from_ne_bytes([address[0], address[1]]) {
        AF_INET => IpAddr::from(*address[4..].first_chunk::<4>().expect("28 bytes")),
        _ => IpAddr::from(*address[8..].first_chunk::<16>().expect("28 bytes")),
    };
    Ok((stream, SocketAddr::new(ip, port)))
}

/// When a peer that says nothing is asked whether it is there, how often again, and how many
/// questions without an answer end the connection. Seconds.
#[derive(Debug, Clone, Copy, PartialEq, Eq)]
pub struct Keepalive {
    pub idle: u16,
    pub interval: u16,
    pub count: u8,
}

/// A peer whose machine has vanished is noticed, in the listener's times, although nothing is sent
/// to it.
pub fn keep_alive(stream: &TcpStream) -> io::Result<()> {
    set_option(stream, SOL_SOCKET, SO_KEEPALIVE, 1)
}

/// A write that the end of the stream is to follow at once: both then leave in one segment, and the
/// peer is woken once instead of twice.
pub fn send_last(stream: &TcpStream, bytes: &[u8]) -> io::Result<usize> {
    let flags = MSG_NOSIGNAL | MSG_MORE;
    // SAFETY: the bytes are read during the call alone.
    match unsafe {
        send(
            stream.as_raw_fd(),
            bytes.as_ptr().cast(),
            bytes.len(),
            flags,
        )
    } {
        -1 => Err(io::Error::last_os_error()),
        count => Ok(count as usize),
    }
}

fn set_option(socket: &impl AsRawFd, level: c_int, name: c_int, value: c_int) -> io::Result<()> {
    let length = size_of::<c_int>() as u32;
    let value = (&raw const value).cast();
    // SAFETY: the value is read during the call alone, with its own length.
    check(unsafe { setsockopt(socket.as_raw_fd(), level, name, value, length) }).map(drop)
}

fn get_option(socket: &impl AsRawFd, level: c_int, name: c_int) -> io::Result<c_int> {
    let mut value: c_int = 0;
    let mut length = size_of::<c_int>() as u32;
    let into = (&raw mut value).cast();
    // SAFETY: no more than `length` bytes are written.
    check(unsafe { getsockopt(socket.as_raw_fd(), level, name, into, &mut length) })?;
    Ok(value)
}
