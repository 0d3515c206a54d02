//! `birken-epmd`: an Erlang port mapper (EPMD) for real nodes. What it answers is decided by the
//! proved mapper of the crate `birkenschuh`; here are the sockets, the clock and the log.

mod ask;
mod callers;
mod clock;
mod connection;
mod creations;
mod door;
mod help;
mod input;
mod limiter;
mod listen;
mod log;
mod mapper;
mod mark;
mod names;
mod options;
mod order;
mod port_of;
mod reserve;
mod say;
mod server;
mod show;
mod start;
mod sys;
mod table;
mod writer;

use std::env;
use std::ffi::OsString;
use std::fmt::Display;
use std::io::{self, Write};
use std::process::ExitCode;

use ask::{Answer, Failure};
use options::Task;

fn main() -> ExitCode {
    match task() {
        Ok(Task::Help) => print(help::HELP),
        Ok(Task::Version) => print(concat!("birken-epmd ", env!("CARGO_PKG_VERSION"), "\n")),
        Ok(Task::Names(options)) => tell(names::ask(&options)),
        Ok(Task::PortOf(name, options)) => tell(port_of::ask(&name, &options)),
        Ok(Task::Serve(options)) => match start::serve(&options) {
            Ok(()) => ExitCode::SUCCESS,
            Err(error) => fail(error),
        },
        Err(message) => fail_as_bad_option(message),
    }
}

/// A word that is not UTF-8 is refused, and not read as another name or folder.
fn task() -> Result<Task, String> {
    let word = |word: OsString| word.into_string();
    let words: Result<Vec<String>, OsString> = env::args_os().skip(1).map(word).collect();
    let words = words.map_err(|word| format!("{word:?} is not UTF-8"))?;
    options::parse(words, |name| env::var(name).ok())
}

fn tell(outcome: Result<Answer, Failure>) -> ExitCode {
    match outcome {
        Ok(answer) => {
            let status = print(&answer.text);
            if let Some(note) = answer.note {
                eprintln!("birken-epmd: {note}");
            }
            status
        }
        Err(Failure::NoAnswer(message)) => fail(message),
        Err(Failure::BadOption(message)) => fail_as_bad_option(message),
    }
}

fn print(text: &str) -> ExitCode {
    match io::stdout().write_all(text.as_bytes()) {
        Ok(()) => ExitCode::SUCCESS,
        Err(_) => ExitCode::FAILURE,
    }
}

fn fail(message: impl Display) -> ExitCode {
    eprintln!("birken-epmd: {message}");
    ExitCode::FAILURE
}

fn fail_as_bad_option(message: String) -> ExitCode {
    eprintln!("birken-epmd: {message}");
    ExitCode::from(2)
}
