//! Namespaces of a test's own: a network with any addresses, and a disk of any size. The layouts and
//! numbers are those of Linux on x86-64.

use std::ffi::CString;
use std::fs;
use std::io;
use std::net::{IpAddr, Ipv4Addr, SocketAddr, TcpStream};
use std::os::fd::{AsRawFd, FromRawFd, OwnedFd};
use std::os::raw::{c_char, c_int, c_ulong, c_void};
use std::os::unix::process::CommandExt;
use std::process::Command;

use super::system::result;

const CLONE_NEWNS: c_int = 0x0002_0000;
const CLONE_NEWUSER: c_int = 0x1000_0000;
const CLONE_NEWNET: c_int = 0x4000_0000;
const MS_REC: c_ulong = 16_384;
const MS_PRIVATE: c_ulong = 1 << 18;
const AF_INET: u16 = 2;
const SOCK_STREAM: c_int = 1;
const SOCK_CLOEXEC: c_int = 0o2_000_000;
const SIOCSIFFLAGS: c_ulong = 0x8914;
const SIOCSIFADDR: c_ulong = 0x8916;
const IFF_UP: u16 = 1;

extern "C" {
    fn unshare(flags: c_int) -> c_int;
    fn geteuid() -> u32;
    fn getegid() -> u32;
    fn mount(
        source: *const c_char,
        target: *const c_char,
        kind: *const c_char,
        flags: c_ulong,
        data: *const c_char,
    ) -> c_int;
    fn socket(family: c_int, kind: c_int, protocol: c_int) -> c_int;
    fn bind(fd: c_int, address: *const c_void, len: u32) -> c_int;
    fn connect(fd: c_int, address: *const c_void, len: u32) -> c_int;
    fn ioctl(fd: c_int, request: c_ulong, ...) -> c_int;
}

/// The program is started with a network and mounts of its own; whoever is not root becomes root
/// of a namespace of users for it.
pub fn enter_namespaces(command: &mut Command) -> &mut Command {
    // SAFETY: no memory is passed.
    let (user, group) = unsafe { (geteuid(), getegid()) };
    let users = if user == 0 { 0 } else { CLONE_NEWUSER };
    let (user, group) = (format!("0 {user} 1"), format!("0 {group} 1"));
    // SAFETY: between fork and exec nothing but system calls are made.
    unsafe {
        command.pre_exec(move || {
            result(unshare(users | CLONE_NEWNET | CLONE_NEWNS))?;
            if users != 0 {
                fs::write("/proc/self/uid_map", &user)?;
                fs::write("/proc/self/setgroups", "deny")?;
                fs::write("/proc/self/gid_map", &group)?;
            }
            // What is mounted here is seen here alone.
            let (none, root) = (c"none".as_ptr(), c"/".as_ptr());
            let flags = MS_REC | MS_PRIVATE;
            result(mount(none, root, std::ptr::null(), flags, std::ptr::null()))
        })
    }
}

/// A disk of some pages at a folder.
pub fn mount_small_disk(folder: &str) {
    let folder = CString::new(folder).expect("a path");
    let (kind, size) = (c"tmpfs".as_ptr(), c"size=32k".as_ptr().cast());
    // SAFETY: all are texts that end with zero, read during the call alone.
    let outcome = result(unsafe { mount(kind, folder.as_ptr(), kind, 0, size) });
    outcome.expect("a small disk");
}

/// `struct ifreq`: a name, and an address or flags.
#[repr(C)]
struct InterfaceRequest {
    name: [u8; 16],
    value: [u8; 24],
}

impl InterfaceRequest {
    fn new(name: &str) -> InterfaceRequest {
        let mut request = InterfaceRequest {
            name: [0; 16],
            value: [0; 24],
        };
        request.name[..name.len()].copy_from_slice(name.as_bytes());
        request
    }

    fn make(self, what: c_ulong) {
        let socket = new_socket().expect("a socket");
        // SAFETY: the request is read during the call alone.
        let outcome = result(unsafe { ioctl(socket.as_raw_fd(), what, &raw const self) });
        outcome.expect("loopback of one's own");
    }
}

/// Loopback works, and has these addresses too: for the system they are no loopback addresses.
pub fn set_up_loopback(addresses: &[&str]) {
    set_flags(IFF_UP);
    for (at, address) in addresses.iter().enumerate() {
        let mut request = InterfaceRequest::new(&format!("lo:{}", at + 1));
        let ip: Ipv4Addr = address.parse().expect("an address");
        request.value[..16].copy_from_slice(&raw_address(ip, 0));
        request.make(SIOCSIFADDR);
    }
}

/// Nothing that is sent arrives any more.
pub fn take_down_loopback() {
    set_flags(0);
}

fn set_flags(flags: u16) {
    let mut request = InterfaceRequest::new("lo");
    request.value[..2].copy_from_slice(&flags.to_ne_bytes());
    request.make(SIOCSIFFLAGS);
}

/// Connects from one IPv4 address to another.
pub fn connect_from(from: IpAddr, to: SocketAddr) -> TcpStream {
    let (IpAddr::V4(from), IpAddr::V4(ip)) = (from, to.ip()) else {
        panic!("IPv4 only");
    };
    let (from, to) = (raw_address(from, 0), raw_address(ip, to.port()));
    let socket = new_socket().expect("a socket");
    // SAFETY: the addresses are read during the calls alone, with their own lengths.
    let outcome = result(unsafe { bind(socket.as_raw_fd(), from.as_ptr().cast(), 16) })
        .and_then(|()| result(unsafe { connect(socket.as_raw_fd(), to.as_ptr().cast(), 16) }));
    outcome.expect("a connection");
    TcpStream::from(socket)
}

fn new_socket() -> io::Result<OwnedFd> {
    // SAFETY: no memory is passed.
    let fd = unsafe { socket(AF_INET.into(), SOCK_STREAM | SOCK_CLOEXEC, 0) };
    result(fd)?;
    // SAFETY: a new descriptor that nothing else owns.
    Ok(unsafe { OwnedFd::from_raw_fd(fd) })
}

fn raw_address(ip: Ipv4Addr, port: u16) -> [u8; 16] {
    let mut bytes = [0; 16];
    bytes[..2].copy_from_slice(&AF_INET.to_ne_bytes());
    bytes[2..4].copy_from_slice(&port.to_be_bytes());
    bytes[4..8].copy_from_slice(&ip.octets());
    bytes
}
