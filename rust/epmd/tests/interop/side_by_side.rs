//! The same requests to this mapper and to the real epmd. Each difference has to be one that
//! docs/INTEROP.md names.

use std::collections::BTreeSet;
use std::io::Write;
use std::net::TcpStream;
use std::thread::sleep;
use std::time::Duration;

use crate::cases::{cases, Case};
use crate::differences::DIFFERENCES;
use crate::support::*;

const DOCUMENT: &str = include_str!("../../../../docs/INTEROP.md");

/// How long a mapper may take to reply or to close; what is still open then stays open.
const WAIT: Duration = Duration::from_millis(300);

/// Runs a case and tells what came back, whether the connection was closed, and which names there
/// are then.
fn outcome(case: &Case, port: u16) -> String {
    let before: Vec<TcpStream> = case
        .before
        .iter()
        .map(|request| {
            let mut stream = send(port, request);
            read_exactly(&mut stream, 4);
            stream
        })
        .collect();
    let mut stream = connect(port);
    for segment in &case.segments {
        // The other side may have closed it already.
        let _ = stream.write_all(segment);
        sleep(case.pause);
    }
    let reply = read_for(&mut stream, WAIT);
    let state = if reply.closed { "closed" } else { "open" };
    let mut left: Vec<String> = names(port);
    left.sort();
    let outcome = format!(
        "{}{state}; {}",
        readable(&reply.bytes, port),
        short(&left.join(" "))
    );
    drop((before, stream));
    eventually("the names are gone", || names(port).is_empty());
    outcome
}

/// Replies without what must differ: creations and the mapper's own port.
fn readable(bytes: &[u8], port: u16) -> String {
    let own_port = u32::from(port).to_be_bytes();
    match bytes {
        [] => String::new(),
        [118, 0, _, _, _, _, rest @ ..] => format!("118 0 creation, {}", readable(rest, port)),
        [121, 0, _, _, rest @ ..] => format!("121 0 creation, {}", readable(rest, port)),
        [118, result, a, b, c, d, rest @ ..] => {
            let creation = u32::from_be_bytes([*a, *b, *c, *d]);
            format!("118 {result} {creation}, {}", readable(rest, port))
        }
        [121, result, a, b, rest @ ..] => {
            let creation = u16::from_be_bytes([*a, *b]);
            format!("121 {result} {creation}, {}", readable(rest, port))
        }
        [119, 0, rest @ ..] => format!("119 0 {}, ", short(&rest.escape_ascii().to_string())),
        _ if bytes.starts_with(&own_port) => {
            format!("port {:?}, ", String::from_utf8_lossy(&bytes[4..]))
        }
        _ => format!("{}, ", short(&bytes.escape_ascii().to_string())),
    }
}

/// Long runs by their beginning and their length.
fn short(text: &str) -> String {
    match text.chars().count() {
        0..=80 => text.to_string(),
        count => format!("{}... ({count})", text.chars().take(12).collect::<String>()),
    }
}

#[test]
#[ignore = "needs epmd: make check-interop"]
fn every_difference_from_the_real_epmd_is_one_that_the_document_names() {
    let (ours, real) = (Mapper::start(&[]), RealEpmd::start());
    let mut faults = Vec::new();
    let mut met = BTreeSet::new();
    for case in cases() {
        let (here, there) = (outcome(&case, ours.port), outcome(&case, real.port));
        let named = DIFFERENCES.iter().find(|it| it.case == case.name);
        match named {
            None if here == there => {}
            Some(it) if here != there && it.ours == here && it.real == there => {
                met.insert(it.why);
            }
            _ => faults.push(format!("{}\n  ours: {here}\n  real: {there}", case.name)),
        }
    }
    assert!(
        faults.is_empty(),
        "not as in the table:\n{}",
        faults.join("\n")
    );
    assert_eq!(met, documented(), "met, and named in docs/INTEROP.md");
}

/// The first column of the document's table of differences.
fn documented() -> BTreeSet<&'static str> {
    let rows = DOCUMENT.lines().filter_map(|line| line.strip_prefix("| `"));
    rows.filter_map(|row| row.split('`').next()).collect()
}

#[test]
fn the_table_of_differences_has_no_case_that_is_not_tried() {
    let tried: Vec<&str> = cases().iter().map(|case| case.name).collect();
    for it in DIFFERENCES {
        assert!(tried.contains(&it.case), "{}", it.case);
        assert!(documented().contains(it.why), "{}", it.why);
    }
}
