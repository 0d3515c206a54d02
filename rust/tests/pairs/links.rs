//! The connections between two hosts, and what can happen to them.

use std::collections::VecDeque;

/// What may still be done, beyond delivering what is on its way.
#[derive(Clone, Copy, Debug)]
pub struct Left {
    /// How often each host may start towards the other.
    pub starts: [u8; 2],
    /// How many connections a host may close of its own will.
    pub closes: u8,
    /// How many frames may be cut on the way.
    pub cuts: u8,
    /// In how many calls a host may lend a wrong cookie.
    pub wrong_cookies: u8,
}

#[derive(Clone, Copy, Debug, PartialEq)]
pub enum Fault {
    None,
    /// The last byte is lost.
    Cut,
    /// The last byte is lost, and the frame's length is one less.
    MendedCut,
    WrongCookie,
}

impl Fault {
    pub fn is_cut(self) -> bool {
        matches!(self, Fault::Cut | Fault::MendedCut)
    }
}

#[derive(Clone, Copy, Debug)]
pub enum Action {
    Start {
        side: usize,
    },
    Arrive {
        link: usize,
    },
    Deliver {
        link: usize,
        side: usize,
        fault: Fault,
    },
    Close {
        link: usize,
        side: usize,
    },
}

#[derive(Clone, Debug)]
pub enum Packet {
    Frame(Vec<u8>),
    /// The sender has closed the connection.
    End,
}

#[derive(Clone, Copy, Debug, PartialEq)]
pub enum At {
    /// The connection has not been accepted yet.
    Coming,
    Slot(usize),
    Gone,
}

/// A connection: where it is at each side, and what is on its way to each side.
#[derive(Clone, Debug)]
pub struct Link {
    pub starter: usize,
    pub at: [At; 2],
    pub to: [VecDeque<Packet>; 2],
}
