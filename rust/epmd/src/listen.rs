//! Where to listen: at the addresses asked for and at loopback, or with the sockets that the
//! starter of this process hands over.

use std::io;
use std::net::{IpAddr, Ipv4Addr, Ipv6Addr, SocketAddr, TcpListener};

use crate::options::Options;
use crate::sys::{self, Keepalive};

const LOOPBACK: [IpAddr; 2] = [
    IpAddr::V4(Ipv4Addr::LOCALHOST),
    IpAddr::V6(Ipv6Addr::LOCALHOST),
];
/// How often a port is picked anew because it is taken at another of the addresses.
const PICKS: usize = 100;

pub struct Listeners {
    pub sockets: Vec<TcpListener>,
    pub addresses: Vec<SocketAddr>,
}

impl Listeners {
    pub fn new(options: &Options) -> io::Result<Listeners> {
        let sockets = match options.handed_over {
            0 => listen(&options.listen, options.port, options.keepalive)?,
            count => sys::handed_over(count, options.keepalive).map_err(|error| {
                io::Error::other(format!("a socket of LISTEN_FDS cannot be used: {error}"))
            })?,
        };
        let addresses: io::Result<Vec<_>> = sockets.iter().map(TcpListener::local_addr).collect();
        let addresses = addresses?;
        if addresses.iter().any(|it| it.port() != addresses[0].port()) {
            return Err(io::Error::other("the sockets of LISTEN_FDS differ in port"));
        }
        Ok(Listeners { sockets, addresses })
    }

    /// The one port of all addresses.
    pub fn port(&self) -> u16 {
        self.addresses[0].port()
    }
}

/// An address, and whether it was asked for.
type Wanted = (IpAddr, bool);

/// What to listen at. Loopback is always among them; what another address covers is left out.
fn wanted(asked: &[IpAddr]) -> Vec<Wanted> {
    let mut all: Vec<Wanted> = Vec::new();
    let asked = asked.iter().map(|it| (it.to_canonical(), true));
    for (ip, was_asked) in asked.chain(LOOPBACK.map(|it| (it, false))) {
        if all.iter().all(|(it, _)| *it != ip) {
            all.push((ip, was_asked));
        }
    }
    let any: Vec<IpAddr> = all.iter().map(|it| it.0).collect();
    let covers = |by: &IpAddr, ip: &IpAddr| by.is_unspecified() && (by.is_ipv6() || ip.is_ipv4());
    all.retain(|(ip, _)| !any.iter().any(|by| by != ip && covers(by, ip)));
    all
}

fn listen(asked: &[IpAddr], port: u16, times: Keepalive) -> io::Result<Vec<TcpListener>> {
    let wanted = wanted(asked);
    let mut outcome = listen_at(&wanted, port, times);
    for _ in 0..PICKS {
        match &outcome {
            Err(error) if port == 0 && error.kind() == io::ErrorKind::AddrInUse => {
                outcome = listen_at(&wanted, port, times);
            }
            _ => break,
        }
    }
    outcome
}

/// Port 0: the first address picks one for all.
fn listen_at(wanted: &[Wanted], mut port: u16, times: Keepalive) -> io::Result<Vec<TcpListener>> {
    let mut sockets = Vec::new();
    for &(ip, was_asked) in wanted {
        match sys::listener(SocketAddr::new(ip, port), times) {
            Ok(socket) => {
                port = socket.local_addr()?.port();
                sockets.push(socket);
            }
            // A system without IPv6, or without IPv4.
            Err(error) if !was_asked && has_no_such_address(&error) => {}
            Err(error) => {
                let message = format!("cannot listen at {ip} port {port}: {error}");
                return Err(io::Error::new(error.kind(), message));
            }
        }
    }
    match sockets.is_empty() {
        true => Err(io::Error::other("this system has no loopback address")),
        false => Ok(sockets),
    }
}

fn has_no_such_address(error: &io::Error) -> bool {
    const EAFNOSUPPORT: i32 = 97;
    error.kind() == io::ErrorKind::AddrNotAvailable || error.raw_os_error() == Some(EAFNOSUPPORT)
}

#[cfg(test)]
mod tests {
    use super::*;

    #[test]
    fn loopback_is_always_among_the_addresses_and_none_is_taken_twice() {
        for (asked, all) in [
            ("", "127.0.0.1? ::1?"),
            ("127.0.0.1", "127.0.0.1 ::1?"),
            ("::1", "::1 127.0.0.1?"),
            ("192.0.2.1 192.0.2.1", "192.0.2.1 127.0.0.1? ::1?"),
            ("::ffff:192.0.2.1 192.0.2.1", "192.0.2.1 127.0.0.1? ::1?"),
            ("0.0.0.0", "0.0.0.0 ::1?"),
            ("192.0.2.1 0.0.0.0 2001:db8::1", "0.0.0.0 2001:db8::1 ::1?"),
            ("0.0.0.0 :: 192.0.2.1", "::"),
        ] {
            let asked_for: Vec<IpAddr> = asked
                .split_whitespace()
                .map(|it| it.parse().unwrap())
                .collect();
            let mark = |asked| if asked { "" } else { "?" };
            let got = wanted(&asked_for);
            let got: Vec<String> = got
                .iter()
                .map(|it| format!("{}{}", it.0, mark(it.1)))
                .collect();
            assert_eq!(got.join(" "), all, "{asked}");
        }
    }
}
