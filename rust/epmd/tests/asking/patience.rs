//! A mapper that does not come to an end of its reply.

use std::io::Write;
use std::net::TcpStream;
use std::process::Output;
use std::thread::{self, sleep};
use std::time::{Duration, Instant};

use crate::{ask, assert_failed};

/// What both who ask make of this mapper.
fn assert_both(mapper: fn(TcpStream), right: fn(&Output, Duration)) {
    let names: (&[&str], &[u8]) = (&["--names"], b"\x00\x01n");
    let port_of: (&[&str], &[u8]) = (&["--port-of", "ride"], b"\x00\x05zride");
    thread::scope(|scope| {
        for (words, request) in [names, port_of] {
            scope.spawn(move || {
                let start = Instant::now();
                let output = ask(words, request, mapper);
                right(&output, start.elapsed());
            });
        }
    });
}

fn timed_out(output: &Output, took: Duration) {
    assert_failed(output, 1, ": timed out after 5 s");
    assert!((4..9).contains(&took.as_secs()), "{took:?}");
}

#[test]
fn a_mapper_that_says_nothing_is_told_as_timed_out() {
    let silent = |stream: TcpStream| {
        sleep(Duration::from_secs(10));
        drop(stream);
    };
    assert_both(silent, timed_out);
}

#[test]
fn a_mapper_that_drips_is_told_as_timed_out() {
    let drips = |mut stream: TcpStream| {
        for _ in 0..40 {
            if stream.write_all(b"x").is_err() {
                return;
            }
            sleep(Duration::from_millis(250));
        }
    };
    assert_both(drips, timed_out);
}

#[test]
fn a_reply_without_end_is_given_up() {
    let endless = |mut stream: TcpStream| while stream.write_all(&[b'x'; 65_536]).is_ok() {};
    assert_both(endless, |output, took| {
        assert_failed(output, 1, ": the reply has no end");
        assert!(took.as_secs() < 9, "{took:?}");
    });
}
