//! Processes that end with the test that started them, each by its own id.

use std::fs;
use std::io::{BufRead, BufReader, Read, Write};
use std::net::{Ipv4Addr, SocketAddr, TcpListener, TcpStream};
use std::process::{Child, ChildStdout, Command, ExitStatus, Output, Stdio};
use std::sync::{Arc, Mutex};
use std::thread;
use std::time::{Duration, Instant};

use super::client::{eventually, PATIENCE};
use super::folder::Folder;
use super::system::set_pipe_size;

pub const BIRKEN_EPMD: &str = env!("CARGO_BIN_EXE_birken-epmd");

/// A running program whose lines, of both its outputs, are gathered.
pub struct Process {
    child: Child,
    lines: Arc<Mutex<Vec<String>>>,
    /// Its standard output, if nobody reads it yet.
    unread: Option<ChildStdout>,
}

impl Process {
    pub fn start(command: &mut Command) -> Process {
        let mut process = Process::start_unread(command);
        process.read_on();
        process
    }

    /// Nobody reads its standard output before `read_on`.
    pub fn start_unread(command: &mut Command) -> Process {
        let mut child = command
            .stdin(Stdio::piped())
            .stdout(Stdio::piped())
            .stderr(Stdio::piped())
            .spawn()
            .unwrap_or_else(|error| panic!("{command:?}: {error}"));
        let lines = Arc::default();
        gather(child.stderr.take().expect("a pipe"), &lines);
        let unread = child.stdout.take();
        Process {
            child,
            lines,
            unread,
        }
    }

    pub fn shrink_pipe(&self) {
        set_pipe_size(self.unread.as_ref().expect("unread"), 4096);
    }

    pub fn read_on(&mut self) {
        if let Some(pipe) = self.unread.take() {
            gather(pipe, &self.lines);
        }
    }

    /// Writes a line to the program, whose input ends with the test.
    pub fn write_line(&mut self, line: &str) {
        let input = self.child.stdin.as_mut().expect("a pipe");
        writeln!(input, "{line}").expect("a line");
    }

    pub fn id(&self) -> u32 {
        self.child.id()
    }

    pub fn lines(&self) -> Vec<String> {
        self.lines.lock().expect("lines").clone()
    }

    pub fn line_count(&self) -> usize {
        self.lines.lock().expect("lines").len()
    }

    /// The first line with these words, once it is there.
    pub fn line_with(&self, words: &str) -> String {
        let find = || self.lines().into_iter().find(|line| line.contains(words));
        eventually(words, || find().is_some());
        find().expect("found before")
    }

    pub fn signal(&self, signal: &str) {
        let id = self.id().to_string();
        let status = Command::new("kill").args(["-s", signal, &id]).status();
        assert!(status.expect("kill").success());
    }

    /// What happens meanwhile has happened when it looks again.
    pub fn while_stopped(&self, what: impl FnOnce()) {
        self.signal("STOP");
        eventually("it is stopped", || self.stat()[0] == "T");
        what();
        self.signal("CONT");
    }

    pub fn wait(&mut self) -> ExitStatus {
        let mut status = None;
        eventually("the end of a process", || {
            status = self.child.try_wait().expect("wait");
            status.is_some()
        });
        status.expect("ended")
    }

    pub fn is_running(&mut self) -> bool {
        self.child.try_wait().expect("wait").is_none()
    }

    /// A number of `/proc/ID/status`, such as `VmRSS`, in KiB.
    pub fn memory(&self, key: &str) -> u64 {
        let status = fs::read_to_string(format!("/proc/{}/status", self.id())).expect("status");
        let line = status.lines().find(|line| line.starts_with(key));
        let number = line.and_then(|line| line.split_whitespace().nth(1));
        number.and_then(|text| text.parse().ok()).expect(key)
    }

    pub fn open_files(&self) -> usize {
        fs::read_dir(format!("/proc/{}/fd", self.id()))
            .expect("fd")
            .count()
    }

    /// Processor time so far, in hundredths of a second.
    pub fn processor_time(&self) -> u64 {
        let fields = self.stat();
        let number = |at: usize| fields[at].parse::<u64>().expect("a number");
        number(11) + number(12)
    }

    /// The fields of `/proc/ID/stat` behind its name: the state, and numbers.
    fn stat(&self) -> Vec<String> {
        let stat = fs::read_to_string(format!("/proc/{}/stat", self.id())).expect("stat");
        let (_, fields) = stat.rsplit_once(')').expect("a name in parentheses");
        fields.split_whitespace().map(str::to_string).collect()
    }
}

fn gather(pipe: impl Read + Send + 'static, lines: &Arc<Mutex<Vec<String>>>) {
    let lines = Arc::clone(lines);
    thread::spawn(move || {
        for line in BufReader::new(pipe).lines().map_while(Result::ok) {
            lines.lock().expect("lines").push(line);
        }
    });
}

impl Drop for Process {
    fn drop(&mut self) {
        let _ = self.child.kill();
        let _ = self.child.wait();
    }
}

/// A running `birken-epmd` on a port that it picked, or on the one given, with a state of its own.
pub struct Mapper {
    pub process: Process,
    pub port: u16,
    pub state: Arc<Folder>,
}

impl Mapper {
    pub fn start(words: &[&str]) -> Mapper {
        Mapper::at(0, words)
    }

    pub fn at(port: u16, words: &[&str]) -> Mapper {
        Mapper::with_state(Arc::new(Folder::new()), port, words)
    }

    /// With the state of a mapper that has ended.
    pub fn with_state(state: Arc<Folder>, port: u16, words: &[&str]) -> Mapper {
        let mut command = birken_epmd();
        let port = format!("--port={port}");
        command.args([&port, "--state-dir", state.path()]);
        Mapper::of(command.args(words), state)
    }

    /// Once it listens.
    pub fn of(command: &mut Command, state: Arc<Folder>) -> Mapper {
        let process = Process::start(command);
        let line = process.line_with("listening");
        let port = port_in(&line);
        Mapper {
            process,
            port,
            state,
        }
    }
}

/// The port at the end of the address in a line about listening.
pub fn port_in(line: &str) -> u16 {
    let mut addresses = line.split(['=', '"', ' ']).filter(|it| it.contains(':'));
    let address = addresses.find_map(|it| it.parse::<SocketAddr>().ok());
    address.expect("an address").port()
}

/// The program, without what the environment of the tests might tell it.
pub fn birken_epmd() -> Command {
    let mut command = Command::new(BIRKEN_EPMD);
    for name in ["ERL_EPMD_PORT", "ERL_EPMD_ADDRESS", "STATE_DIRECTORY"] {
        command.env_remove(name);
    }
    command
}

/// Runs `birken-epmd` to its end.
pub fn run(words: &[&str]) -> Output {
    let state = Folder::new();
    let mut command = birken_epmd();
    // Where the default leads, should these words not name a folder.
    command.env("XDG_STATE_HOME", state.path());
    outcome(command.args(words))
}

/// Runs a program that ends by itself, to its end.
pub fn outcome(command: &mut Command) -> Output {
    let command = command.stdin(Stdio::null()).stdout(Stdio::piped());
    let mut child = command.stderr(Stdio::piped()).spawn().expect("a program");
    let end = Instant::now() + PATIENCE;
    while child.try_wait().expect("wait").is_none() {
        if Instant::now() > end {
            let _ = child.kill();
            let _ = child.wait();
            panic!("not ended within {PATIENCE:?}: {command:?}");
        }
        thread::sleep(Duration::from_millis(5));
    }
    child.wait_with_output().expect("its output")
}

/// The real epmd on a port of its own, loopback only.
pub struct RealEpmd {
    pub process: Process,
    pub port: u16,
}

impl RealEpmd {
    pub fn start() -> RealEpmd {
        let port = free_port();
        let mut command = Command::new("epmd");
        command.args(["-port", &port.to_string()]);
        command.env("ERL_EPMD_ADDRESS", "127.0.0.1");
        let process = Process::start(&mut command);
        eventually("the real epmd listens", || {
            TcpStream::connect((Ipv4Addr::LOCALHOST, port)).is_ok()
        });
        RealEpmd { process, port }
    }
}

pub fn free_port() -> u16 {
    let listener = TcpListener::bind((Ipv4Addr::LOCALHOST, 0)).expect("bind");
    listener.local_addr().expect("address").port()
}

/// A line that is seen although the test passes.
pub fn say(line: &str) {
    let _ = writeln!(std::io::stderr(), "{line}");
}

/// All of a pipe's text.
pub fn text(mut pipe: impl Read) -> String {
    let mut text = String::new();
    pipe.read_to_string(&mut text).expect("UTF-8");
    text
}
