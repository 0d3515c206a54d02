//! The command line, and what counts where it says nothing: ERL_EPMD_PORT, ERL_EPMD_ADDRESS,
//! LISTEN_FDS and the folders of the user.

use std::fmt::Display;
use std::net::{IpAddr, Ipv4Addr};
use std::path::PathBuf;
use std::str::FromStr;
use std::time::Duration;

use crate::sys::Keepalive;

#[derive(Debug, Clone, PartialEq)]
pub struct Options {
    /// Who is asked.
    pub address: IpAddr,
    /// Where to listen besides loopback.
    pub listen: Vec<IpAddr>,
    pub port: u16,
    /// How many sockets were handed over by the starter.
    pub handed_over: u16,
    pub allow_remote: bool,
    pub state: State,
    /// In place of the clock's number.
    pub first_creation: Option<u32>,
    pub max_connections: usize,
    pub idle_timeout: Duration,
    pub keepalive: Keepalive,
    pub quiet: bool,
    pub json: bool,
}

/// Where the mark of creations is kept.
#[derive(Debug, Clone, PartialEq)]
pub enum State {
    Folder(PathBuf),
    None,
}

#[derive(Debug, PartialEq)]
pub enum Task {
    Serve(Options),
    Names(Options),
    PortOf(String, Options),
    Help,
    Version,
}

impl Options {
    fn new() -> Options {
        Options {
            address: Ipv4Addr::LOCALHOST.into(),
            listen: Vec::new(),
            port: 4369,
            handed_over: 0,
            allow_remote: false,
            state: State::None,
            first_creation: None,
            // A registry has 64 nodes; the others are callers that stay for microseconds, or
            // silent. With a few descriptors more this is half of what a process may usually open
            // (1,024).
            max_connections: 512,
            idle_timeout: Duration::from_secs(60),
            keepalive: Keepalive {
                idle: 60,
                interval: 15,
                count: 4,
            },
            quiet: false,
            json: false,
        }
    }
}

/// What the words have set, where an option left out is not its default.
#[derive(Default)]
struct Given {
    names: bool,
    port_of: Option<String>,
    address: bool,
    port: bool,
    state: bool,
    /// An option that has no meaning for one who asks.
    for_serving: Option<String>,
}

const FOR_ASKING: [&str; 6] = [
    "--names",
    "--port-of",
    "--json",
    "--quiet",
    "--address",
    "--port",
];

/// The task, or what is wrong in one line. `variable` gives a variable of the environment.
pub fn parse(
    words: impl IntoIterator<Item = String>,
    variable: impl Fn(&str) -> Option<String>,
) -> Result<Task, String> {
    let mut options = Options::new();
    let mut given = Given::default();
    let mut words = words.into_iter();
    while let Some(word) = words.next() {
        let (option, value) = match word.split_once('=') {
            Some((option, value)) => (option, Some(value.to_string())),
            None => (word.as_str(), None),
        };
        match (option, &value) {
            ("--help", None) => return Ok(Task::Help),
            ("--version", None) => return Ok(Task::Version),
            ("--names", None) => given.names = true,
            ("--json", None) => options.json = true,
            ("--quiet", None) => options.quiet = true,
            ("--allow-remote-registration", None) => options.allow_remote = true,
            ("--no-state", None) => (options.state, given.state) = (State::None, true),
            ("--allow-remote-registration" | "--no-state", _) => return Err(unknown(&word)),
            _ if takes_value(option) => set(&mut options, &mut given, option, value, &mut words)?,
            _ => return Err(unknown(&word)),
        }
        if !FOR_ASKING.contains(&option) {
            given.for_serving = Some(option.to_string());
        }
    }
    let variable = |name: &str| variable(name).filter(|value| !value.is_empty());
    complete(&mut options, &given, &variable)?;
    Ok(match given.port_of {
        Some(name) => Task::PortOf(name, options),
        None if given.names => Task::Names(options),
        None => Task::Serve(options),
    })
}

fn unknown(word: &str) -> String {
    format!("unknown option {word:?}, see --help")
}

fn takes_value(option: &str) -> bool {
    const OPTIONS: [&str; 10] = [
        "--address",
        "--port",
        "--port-of",
        "--state-dir",
        "--first-creation",
        "--max-connections",
        "--idle-timeout",
        "--keepalive-idle",
        "--keepalive-interval",
        "--keepalive-count",
    ];
    OPTIONS.contains(&option)
}

/// Sets an option whose value stands behind "=" or is the next word.
fn set(
    options: &mut Options,
    given: &mut Given,
    option: &str,
    value: Option<String>,
    words: &mut impl Iterator<Item = String>,
) -> Result<(), String> {
    let value = value
        .or_else(|| words.next())
        .ok_or_else(|| format!("{option} needs a value"))?;
    let value = value.as_str();
    match option {
        "--address" => {
            options.listen.extend(addresses(option, value)?);
            given.address = true;
        }
        "--port" => (options.port, given.port) = (number(option, value, 0..=65_535)?, true),
        "--port-of" => given.port_of = Some(value.to_string()),
        "--state-dir" if value.is_empty() => return Err(format!("{option} needs a value")),
        "--state-dir" => (options.state, given.state) = (State::Folder(value.into()), true),
        "--first-creation" => {
            options.first_creation = Some(number(option, value, 1..=u32::MAX)?);
        }
        "--max-connections" => options.max_connections = number(option, value, 1..=1_000_000)?,
        "--keepalive-idle" => options.keepalive.idle = number(option, value, 1..=32_767)?,
        "--keepalive-interval" => options.keepalive.interval = number(option, value, 1..=32_767)?,
        "--keepalive-count" => options.keepalive.count = number(option, value, 1..=127)?,
        _ => options.idle_timeout = seconds(option, value)?,
    }
    Ok(())
}

/// What the environment says where the words do not, and whether all goes together.
fn complete(
    options: &mut Options,
    given: &Given,
    variable: &impl Fn(&str) -> Option<String>,
) -> Result<(), String> {
    if let (false, Some(port)) = (given.port, variable("ERL_EPMD_PORT")) {
        options.port = number("ERL_EPMD_PORT", &port, 0..=65_535)?;
    }
    if given.names || given.port_of.is_some() {
        return complete_asking(options, given);
    }
    if let (false, Some(list)) = (given.address, variable("ERL_EPMD_ADDRESS")) {
        options.listen = addresses("ERL_EPMD_ADDRESS", &list)?;
    }
    if variable("LISTEN_PID").as_deref() == Some(&std::process::id().to_string()) {
        let count = variable("LISTEN_FDS").unwrap_or_default();
        options.handed_over = number("LISTEN_FDS", &count, 0..=1_000)?;
        if options.handed_over > 0 && (given.address || given.port) {
            let message = "sockets are handed over, so --address and --port have no place";
            return Err(message.to_string());
        }
    }
    if !given.state {
        options.state = State::Folder(state_folder(variable)?);
    }
    Ok(())
}

fn complete_asking(options: &mut Options, given: &Given) -> Result<(), String> {
    options.address = options.listen.first().copied().unwrap_or(options.address);
    let asks = if given.names { "--names" } else { "--port-of" };
    match &given.for_serving {
        Some(option) => Err(format!("{option} does not go with {asks}")),
        None if given.names && given.port_of.is_some() => {
            Err("--port-of does not go with --names".to_string())
        }
        None if options.listen.len() > 1 => Err(format!("{asks} asks one address")),
        None if options.port == 0 => Err(format!("{asks} needs a port to ask")),
        None => Ok(()),
    }
}

/// Where programs of this user, or this service of the system, keep what is to last.
fn state_folder(variable: &impl Fn(&str) -> Option<String>) -> Result<PathBuf, String> {
    let below = |folder: PathBuf| folder.is_absolute().then(|| folder.join("birken-epmd"));
    let service = variable("STATE_DIRECTORY");
    let service = service.and_then(|list| list.split(':').next().map(PathBuf::from));
    let user = || variable("XDG_STATE_HOME").and_then(|it| below(it.into()));
    let home = || variable("HOME").and_then(|it| below(PathBuf::from(it).join(".local/state")));
    service
        .or_else(user)
        .or_else(home)
        .ok_or_else(|| "no folder for the state is known: --state-dir or --no-state".to_string())
}

fn addresses(option: &str, list: &str) -> Result<Vec<IpAddr>, String> {
    let address = |text: &str| {
        let text = text.trim();
        let bad = |_| format!("{option} must be an IP address or some with commas, not {list:?}");
        text.parse().map_err(bad)
    };
    list.split(',').map(address).collect()
}

/// A decimal number in `range`.
fn number<T: FromStr + PartialOrd + Display>(
    option: &str,
    text: &str,
    range: std::ops::RangeInclusive<T>,
) -> Result<T, String> {
    match text.parse() {
        Ok(number) if range.contains(&number) => Ok(number),
        _ => {
            let (low, high) = (range.start(), range.end());
            Err(format!("{option} must be {low} to {high}, not {text:?}"))
        }
    }
}

fn seconds(option: &str, text: &str) -> Result<Duration, String> {
    match text.parse() {
        Ok(seconds) if (0.001..=86_400.0).contains(&seconds) => {
            Ok(Duration::from_secs_f64(seconds))
        }
        _ => Err(format!("{option} must be 0.001 to 86400, not {text:?}")),
    }
}

#[cfg(test)]
#[path = "options_tests.rs"]
mod tests;
