//! From the options to a server that runs.

use std::io;
use std::time::Instant;

use birkenschuh::Registry;

use crate::callers::Callers;
use crate::clock;
use crate::creations::Creations;
use crate::listen::Listeners;
use crate::log::{Log, Value};
use crate::mapper::{Mapper, Rules};
use crate::options::{Options, State};
use crate::server::Server;
use crate::sys::{self, Signals};

/// Open files besides the connections and the listening sockets: the standard three, poll, signals,
/// the log's own, three of the mark, a newcomer who finds all taken, and some to spare.
const OTHER_FILES: u64 = 16;

/// Serves until a signal asks for the end.
pub fn serve(options: &Options) -> io::Result<()> {
    // First, so that all threads leave the signals to it.
    let signals = Signals::new()?;
    let listeners = Listeners::new(options)?;
    check_file_limit(options.max_connections, listeners.sockets.len())?;
    let creations = creations(options)?;
    let registry = Registry::new(listeners.port(), creations.next())
        .map_err(|refusal| io::Error::new(io::ErrorKind::InvalidInput, refusal))?;
    let mut log = Log::new(options.json, options.quiet)?;
    say_listening(&mut log, &listeners, creations.next(), options);
    let rules = Rules {
        idle: options.idle_timeout,
        callers: match options.allow_remote {
            true => Callers::anyone(),
            false => Callers::of_this_machine(listeners.addresses.iter().copied()),
        },
    };
    let mapper = Mapper::new(registry, creations, rules, log);
    let mut server = Server::new(listeners.sockets, signals, mapper, options.max_connections)?;
    let outcome = server.run();
    end(&mut server.mapper);
    outcome
}

/// The mark falls back to what was really given; if that fails, some numbers are spent for nothing.
fn end(mapper: &mut Mapper) {
    if let Err(error) = mapper.creations.end() {
        mapper.say_disk_failed(&error);
    }
    mapper.log.end();
}

fn creations(options: &Options) -> io::Result<Creations> {
    let by_clock = clock::first_creation();
    let start = Instant::now();
    let first = options.first_creation.unwrap_or(by_clock);
    match (&options.state, options.first_creation) {
        (State::Folder(folder), _) => Creations::marked(folder, first),
        (State::None, Some(_)) => Ok(Creations::by_operator(first)),
        (State::None, None) => Ok(Creations::by_clock(first, start)),
    }
}

fn check_file_limit(connections: usize, listeners: usize) -> io::Result<()> {
    let files = connections as u64 + listeners as u64 + OTHER_FILES;
    sys::raise_file_limit(files)?.map_err(|limit| {
        io::Error::other(format!(
            "--max-connections {connections} needs {files} open files, and this process may have \
             {limit} (ulimit -n, LimitNOFILE)"
        ))
    })
}

fn say_listening(log: &mut Log, listeners: &Listeners, first_creation: u32, options: &Options) {
    let state = match &options.state {
        State::Folder(folder) => folder.display().to_string(),
        State::None => "none".to_string(),
    };
    for address in &listeners.addresses {
        let address = address.to_string();
        let fields = [
            ("address", Value::Text(&address)),
            ("first-creation", Value::Number(first_creation.into())),
            (
                "max-connections",
                Value::Number(options.max_connections as u64),
            ),
            ("state", Value::Text(&state)),
        ];
        if options.quiet && options.port == 0 {
            // The port that was picked is told even if nothing else is.
            return log.say("listening", &fields);
        }
        log.line("listening", &fields);
    }
}
