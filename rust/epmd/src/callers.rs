//! Who may register a node: as with the real epmd, a caller on this machine.

use std::net::{IpAddr, SocketAddr, TcpStream};

/// The addresses that this mapper listens at, or nothing if anyone may register.
pub struct Callers {
    own: Option<Vec<IpAddr>>,
}

impl Callers {
    pub fn anyone() -> Callers {
        Callers { own: None }
    }

    pub fn of_this_machine(listening: impl IntoIterator<Item = SocketAddr>) -> Callers {
        let addresses = listening.into_iter().map(|it| it.ip().to_canonical());
        // At "any address" nobody calls from.
        let own = addresses.filter(|it| !it.is_unspecified()).collect();
        Callers { own: Some(own) }
    }

    pub fn may_register(&self, peer: SocketAddr, stream: &TcpStream) -> bool {
        let called = || stream.local_addr().ok().map(|it| it.ip());
        self.admits(peer.ip(), called)
    }

    /// `called`: the address of this machine that the caller has reached. Whoever calls from it is
    /// here too, and a mapper that listens at any address knows no other.
    fn admits(&self, peer: IpAddr, called: impl Fn() -> Option<IpAddr>) -> bool {
        let Some(own) = &self.own else { return true };
        let peer = peer.to_canonical();
        peer.is_loopback()
            || own.contains(&peer)
            || called().is_some_and(|it| it.to_canonical() == peer)
    }
}

#[cfg(test)]
mod tests {
    use super::*;

    fn admits(callers: &Callers, peer: &str, called: &str) -> bool {
        callers.admits(peer.parse().unwrap(), || called.parse().ok())
    }

    #[test]
    fn callers_of_this_machine_may_register_and_others_may_not() {
        let listening = ["192.0.2.1:4369", "[2001:db8::1]:4369", "127.0.0.1:4369"];
        let callers = Callers::of_this_machine(listening.map(|it| it.parse().unwrap()));
        for (peer, called, may) in [
            ("127.0.0.1", "127.0.0.1", true),
            ("127.9.9.9", "127.0.0.1", true),
            ("::1", "::1", true),
            ("::ffff:127.0.0.1", "::ffff:127.0.0.1", true),
            ("192.0.2.1", "192.0.2.1", true),
            ("::ffff:192.0.2.1", "::ffff:192.0.2.1", true),
            ("192.0.2.1", "127.0.0.1", true),
            ("2001:db8::1", "2001:db8::1", true),
            ("192.0.2.2", "192.0.2.1", false),
            ("::ffff:192.0.2.2", "::ffff:192.0.2.1", false),
            ("2001:db8::2", "2001:db8::1", false),
            ("::ffff:128.0.0.1", "192.0.2.1", false),
            ("0.0.0.0", "192.0.2.1", false),
        ] {
            assert_eq!(admits(&callers, peer, called), may, "{peer} to {called}");
        }
    }

    #[test]
    fn at_any_address_whoever_calls_from_the_address_called_is_here() {
        let any = ["0.0.0.0:4369", "[::]:4369"].map(|it| it.parse().unwrap());
        let callers = Callers::of_this_machine(any);
        assert!(admits(&callers, "192.0.2.1", "192.0.2.1"));
        assert!(admits(&callers, "::ffff:192.0.2.1", "192.0.2.1"));
        assert!(!admits(&callers, "192.0.2.2", "192.0.2.1"));
        assert!(!admits(&callers, "0.0.0.0", "192.0.2.1"));
        assert!(admits(&Callers::anyone(), "192.0.2.2", "192.0.2.1"));
    }
}
