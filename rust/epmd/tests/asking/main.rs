//! `--names` and `--port-of` against a mapper that answers as the test says.

#[path = "../support/mod.rs"]
mod support;

mod names;
mod patience;
mod port_of;

use std::io::{Read, Write};
use std::net::{Ipv4Addr, TcpListener, TcpStream};
use std::process::Output;
use std::sync::mpsc;
use std::thread;

use support::{birken_epmd, outcome, text, PATIENCE};

/// Asks a mapper once, which has to get this request.
fn ask(words: &[&str], request: &[u8], mapper: impl FnOnce(TcpStream) + Send + 'static) -> Output {
    let listener = TcpListener::bind((Ipv4Addr::LOCALHOST, 0)).expect("bind");
    let port = listener.local_addr().expect("address").port().to_string();
    let (tell, told) = mpsc::channel();
    let mut came = vec![0; request.len()];
    thread::spawn(move || {
        let (mut stream, _) = listener.accept().expect("accept");
        stream.read_exact(&mut came).expect("a request");
        tell.send(came).expect("the test waits");
        mapper(stream);
    });
    let mut command = birken_epmd();
    command.args(["--address", "127.0.0.1", "--port", &port]);
    let output = outcome(command.args(words));
    assert_eq!(told.recv_timeout(PATIENCE).expect("a request"), request);
    output
}

/// Asks a mapper that sends this reply and closes.
fn ask_for(words: &[&str], request: &[u8], reply: &[u8]) -> Output {
    let reply = reply.to_vec();
    ask(words, request, move |mut stream| {
        stream.write_all(&reply).expect("write");
    })
}

/// What was printed by one who had nothing to say beside.
fn printed(output: &Output) -> String {
    assert!(output.status.success(), "{output:?}");
    assert_eq!(text(&output.stderr[..]), "");
    text(&output.stdout[..])
}

/// Nothing was printed, and the one line of complaint ends so.
fn assert_failed(output: &Output, status: i32, end: &str) {
    let said = text(&output.stderr[..]);
    assert_eq!(output.status.code(), Some(status), "{said}");
    assert!(output.stdout.is_empty());
    assert_eq!(said.lines().count(), 1, "{said}");
    assert!(said.starts_with("birken-epmd: "), "{said}");
    assert!(said.ends_with(&format!("{end}\n")), "{said}");
}
