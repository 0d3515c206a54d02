//! Waits for all connections at once, attends to those that are ready, closes those whose time is
//! over.

use std::collections::VecDeque;
use std::io;
use std::net::TcpListener;
use std::time::{Duration, Instant};

use crate::connection::Why;
use crate::creations::May;
use crate::log::Value;
use crate::mapper::{Mapper, Next};
use crate::sys::{Event, Poll, Signal, Signals, READABLE};
use crate::table::{token, Table};

/// Tokens of the poll that are no connection's: their slots are beyond any.
const SIGNALS: u64 = u64::MAX;
pub const LISTENERS: u64 = u64::MAX - 0xffff;

pub struct Server {
    pub poll: Poll,
    pub listeners: Vec<TcpListener>,
    signals: Signals,
    pub mapper: Mapper,
    pub connections: Table,
    pub turn: Turn,
}

/// What is carried over from turn to turn.
#[derive(Default)]
pub struct Turn {
    /// Accepted, and not looked at yet.
    pub new: VecDeque<u64>,
    /// Somebody waited to be accepted in the last turn too.
    pub crowded: bool,
    /// Their registrations wait for creations, until `held_until`.
    held: VecDeque<u64>,
    held_until: Option<Instant>,
    /// When accepting goes on.
    pub rests_until: Option<Instant>,
}

impl Server {
    pub fn new(
        listeners: Vec<TcpListener>,
        signals: Signals,
        mapper: Mapper,
        limit: usize,
    ) -> io::Result<Server> {
        let poll = Poll::new()?;
        for (at, listener) in listeners.iter().enumerate() {
            poll.add(listener, LISTENERS + at as u64, READABLE)?;
        }
        poll.add(&signals, SIGNALS, READABLE)?;
        Ok(Server {
            poll,
            listeners,
            signals,
            mapper,
            connections: Table::new(limit),
            turn: Turn::default(),
        })
    }

    /// Serves until a signal asks for the end.
    pub fn run(&mut self) -> io::Result<()> {
        let mut events = [Event { ready: 0, token: 0 }; 256];
        loop {
            let timeout = self.timeout();
            let ready = self.poll.wait(&mut events, timeout)?;
            let now = Instant::now();
            let mut waiting = Vec::new();
            for event in ready {
                match event.token {
                    SIGNALS if self.obeys_signals() => return Ok(()),
                    SIGNALS => {}
                    LISTENERS.. => waiting.push((event.token - LISTENERS) as usize),
                    token => self.attend(token, event.ready, now),
                }
            }
            self.wake(now)?;
            for &at in &waiting {
                self.accept(at, now)?;
            }
            self.turn.crowded = !waiting.is_empty();
        }
    }

    /// Whether a signal asks for the end.
    fn obeys_signals(&mut self) -> bool {
        while let Some(signal) = self.signals.take() {
            match signal {
                Signal::End(name) => {
                    self.mapper.say_stopped(name);
                    return true;
                }
                Signal::Hangup => {
                    let fields = [("signal", Value::Text("SIGHUP"))];
                    self.mapper.log.line("ignored", &fields);
                }
            }
        }
        false
    }

    /// Until when there is nothing to do, if nothing becomes ready.
    fn timeout(&self) -> Option<Duration> {
        let deadline = self.connections.first_caller().map(|it| it.deadline);
        let turn = &self.turn;
        let times = [
            deadline,
            turn.rests_until,
            turn.held_until,
            self.mapper.log.due(),
        ];
        let first = times.into_iter().flatten().min()?;
        Some(first.saturating_duration_since(Instant::now()))
    }

    pub fn attend(&mut self, token: u64, ready: u32, now: Instant) {
        let Some(it) = self.connections.get(token) else {
            return;
        };
        let outcome = self.mapper.attend(it, ready, now);
        self.conclude(token, outcome, now);
    }

    /// Each turn of the loop answers a request, and a connection has three replies at most.
    fn conclude(&mut self, token: u64, mut outcome: Result<Next, Why>, now: Instant) {
        while let Ok(Next::SeekEnded(nodes)) = &outcome {
            for ended in self.connections.ended_nodes(nodes) {
                self.close(ended, &Why::Ended);
            }
            let Some(it) = self.connections.get(token) else {
                return;
            };
            outcome = self.mapper.answer_all(it, now, true);
        }
        self.settle(token, outcome);
    }

    /// Waits for what the connection needs next, or closes it.
    pub fn settle(&mut self, token: u64, outcome: Result<Next, Why>) {
        let Some(it) = self.connections.get(token) else {
            return;
        };
        let was_held = it.held;
        it.held = matches!(outcome, Ok(Next::Hold(_)));
        let interest = it.interest();
        let outcome = outcome.and_then(|next| {
            match it.waits_for {
                same if same == interest => Ok(()),
                0 => self.poll.add(&it.stream, token, interest),
                _ => self.poll.change(&it.stream, token, interest),
            }
            .map_err(Why::Failed)?;
            it.waits_for = interest;
            Ok(next)
        });
        let has_node = it.node.is_some();
        match outcome {
            Err(why) => return self.close(token, &why),
            Ok(Next::Hold(time)) if !was_held => self.hold(token, time),
            Ok(_) => {}
        }
        if has_node {
            self.connections.settle_node(token);
        }
    }

    fn hold(&mut self, token: u64, time: Instant) {
        self.turn.held_until.get_or_insert(time);
        // Those that were closed meanwhile are still in it.
        if self.turn.held.len() >= 2 * self.connections.limit() {
            let connections = &mut self.connections;
            let is_open = |it: &u64| connections.get(*it).is_some();
            self.turn.held.retain(is_open);
        }
        self.turn.held.push_back(token);
    }

    pub fn close(&mut self, token: u64, why: &Why) {
        if let Some(it) = self.connections.remove(token) {
            self.mapper.closed(&it, why);
        }
    }

    /// What is due by the clock.
    fn wake(&mut self, now: Instant) -> io::Result<()> {
        if self.turn.rests_until.is_some_and(|time| time <= now) {
            self.turn.rests_until = None;
            self.listen_for(READABLE)?;
        }
        while let Some(it) = self.connections.first_caller() {
            if it.deadline > now {
                break;
            }
            self.close(token(it), &Why::TimedOut);
        }
        if self.turn.held_until.is_some_and(|time| time <= now) {
            self.turn.held_until = None;
            self.let_go(now);
        }
        if self.mapper.log.due().is_some_and(|time| time <= now) {
            self.mapper.log.tell_left_out(now);
        }
        Ok(())
    }

    /// Registrations that waited, in their order, until one has to wait on.
    fn let_go(&mut self, now: Instant) {
        while !self.turn.held.is_empty() {
            if let May::Later(time) = self.mapper.may_give(now) {
                self.turn.held_until = Some(time);
                return;
            }
            let Some(token) = self.turn.held.pop_front() else {
                return;
            };
            if let Some(it) = self.connections.get(token) {
                it.held = false;
                let outcome = self.mapper.answer_all(it, now, false);
                self.conclude(token, outcome, now);
            }
        }
    }
}
