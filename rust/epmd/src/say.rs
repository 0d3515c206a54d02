//! What the log says of connections and nodes.

use std::io;

use birkenschuh::{Alive2Result, Refusal};

use crate::connection::{Connection, Why};
use crate::log::Value;
use crate::mapper::{name, Mapper, LAST_FAILURE};

impl Mapper {
    fn say(&mut self, event: &'static str, it: &Connection, fields: &[(&str, Value)]) {
        if !self.log.admits(event) {
            return;
        }
        let peer = it.peer.to_string();
        let who = [
            ("peer", Value::Text(&peer)),
            ("connection", Value::Number(it.number)),
        ];
        self.log.say(event, &[fields, &who].concat());
    }

    /// A connection that was closed for a reason worth a line of its own.
    pub fn say_closed(&mut self, it: &Connection, why: &Why) {
        let state = [("state", Value::Text(it.state()))];
        match why {
            Why::TimedOut => self.say("timed-out", it, &state),
            Why::NoMemory => self.say("memory-spent", it, &state),
            Why::MadeRoom => self.say("made-room", it, &state),
            Why::NotLocal => {
                let reason = Value::Text("the caller is not on this machine");
                self.say("registration-refused", it, &[("reason", reason)]);
            }
            Why::NoCreation => {
                let reason = Value::Text("no creation could be reserved");
                self.say("registration-refused", it, &[("reason", reason)]);
            }
            _ => {}
        }
    }

    pub fn say_node(&mut self, event: &'static str, it: &Connection, why: Option<&Why>) {
        let Some(node) = &it.node else { return };
        let mut fields = vec![
            ("name", Value::Name(&node.name)),
            ("port", Value::Number(node.port.into())),
            ("creation", Value::Number(node.creation.into())),
        ];
        let failure;
        match why {
            None => {}
            Some(Why::Failed(error)) => {
                failure = error.to_string();
                fields.push(("reason", Value::Text(&failure)));
            }
            Some(Why::Answered) if it.failures < LAST_FAILURE => {
                fields.push(("reason", Value::Text("asked on its connection")));
            }
            Some(Why::Answered) => fields.push(("reason", Value::Text("registered again"))),
            Some(Why::Refused(_)) => fields.push(("reason", Value::Text("refused"))),
            Some(_) => fields.push(("reason", Value::Text("connection ended"))),
        }
        self.say(event, it, &fields);
    }

    /// An ALIVE2 with a Result above 0. Real nodes say of each that the name seems to be in use, so
    /// the log alone tells an operator which it was.
    pub fn say_not_registered(&mut self, it: &Connection, result: Alive2Result) {
        let Some(frame) = it.input.frame() else {
            return;
        };
        let reason = result.to_string();
        let fields = [
            ("name", Value::Name(name(frame))),
            ("result", Value::Number(result.number().into())),
            ("reason", Value::Text(&reason)),
        ];
        self.say("not-registered", it, &fields);
    }

    pub fn say_refused(&mut self, it: &Connection, why: &Why) {
        let (Why::Refused(refusal), Some(frame)) = (why, it.input.frame()) else {
            return;
        };
        let meaning = refusal.to_string();
        let mut fields = vec![
            ("refusal", Value::Number(refusal.number().into())),
            ("meaning", Value::Text(&meaning)),
            ("length", Value::Number(frame.len() as u64)),
        ];
        if *refusal != Refusal::NotAFrame {
            fields.push(("tag", Value::Number(frame[2].into())));
        }
        self.say("refused", it, &fields);
    }

    pub fn say_disk_failed(&mut self, error: &io::Error) {
        let reason = error.to_string();
        self.log
            .line("state-failed", &[("reason", Value::Text(&reason))]);
    }

    pub fn say_stopped(&mut self, signal: &str) {
        let fields = [
            ("signal", Value::Text(signal)),
            ("nodes", Value::Number(self.nodes as u64)),
        ];
        self.log.line("stopped", &fields);
    }
}
