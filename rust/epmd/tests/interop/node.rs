//! A real Erlang node that evaluates the lines it is sent.

use std::process::Command;

use crate::support::*;

/// Reads expressions from standard input, prints each value behind "=> ", and halts when the input
/// ends.
const LOOP: &str = "\
    Loop = fun Again() ->
        case io:get_line(\"\") of
            eof -> halt(0);
            Line ->
                {ok, Tokens, _} = erl_scan:string(Line),
                {ok, Exprs} = erl_parse:parse_exprs(Tokens),
                {value, Value, _} = erl_eval:exprs(Exprs, []),
                io:format(\"=> ~0p~n\", [Value]),
                Again()
        end
    end,
    Loop().";

/// What nodes are started with.
pub const COOKIE: &str = "monster";

/// The name of a node on this machine, with its host.
pub fn full_name(name: &str) -> String {
    format!("{name}@127.0.0.1")
}

/// The expression that connects a node to the one of a full name.
pub fn connect_node(name: &str) -> String {
    format!("net_kernel:connect_node('{name}').")
}

pub struct Node {
    pub process: Process,
    answers: usize,
}

impl Node {
    /// Starts `erl -name NAME@127.0.0.1` on the mapper at `port`. It need not come up.
    pub fn spawn(name: &str, port: u16, words: &[&str]) -> Node {
        let words = [&["-start_epmd", "false"], words].concat();
        Node::spawn_as_usual(name, port, &words)
    }

    /// As above, but before it registers it starts the real epmd, which finds the port taken.
    pub fn spawn_as_usual(name: &str, port: u16, words: &[&str]) -> Node {
        let mut command = Command::new("erl");
        command
            .args(["-noshell", "-setcookie", COOKIE])
            .args(["-name", &full_name(name)])
            .args(["-kernel", "inet_dist_use_interface", "{127,0,0,1}"])
            .args(["+S", "1:1", "-eval", LOOP])
            .args(words)
            .env("ERL_EPMD_PORT", port.to_string())
            .env("ERL_CRASH_DUMP_SECONDS", "0");
        Node {
            process: Process::start(&mut command),
            answers: 0,
        }
    }

    /// Starts it and waits until it is up.
    pub fn start(name: &str, port: u16) -> Node {
        Node::start_with(name, port, &[])
    }

    pub fn start_with(name: &str, port: u16, words: &[&str]) -> Node {
        let mut node = Node::spawn(name, port, words);
        assert_eq!(node.eval("node()."), format!("'{}'", full_name(name)));
        node
    }

    /// The value of an expression, as Erlang prints it.
    pub fn eval(&mut self, expression: &str) -> String {
        self.begin(expression);
        self.end(expression)
    }

    /// Begins with an expression whose value takes something that the test has to do meanwhile.
    pub fn begin(&mut self, expression: &str) {
        self.process.write_line(expression);
    }

    /// Its value.
    pub fn end(&mut self, expression: &str) -> String {
        let mut value = None;
        eventually(expression, || {
            value = self.answer();
            value.is_some()
        });
        value.expect("seen before")
    }

    /// The value of the expression that was begun first and not ended yet, if it is there.
    pub fn answer(&mut self) -> Option<String> {
        let lines = self.process.lines();
        let mut values = lines.iter().filter_map(|line| line.strip_prefix("=> "));
        let value = values.nth(self.answers)?.to_string();
        self.answers += 1;
        Some(value)
    }

    pub fn number(&mut self, expression: &str) -> u32 {
        self.eval(expression).parse().expect(expression)
    }

    /// Stops it as an operator would.
    pub fn stop(mut self) {
        self.process.write_line("init:stop().");
        assert!(self.process.wait().success());
    }
}
