//! No creation comes again: over crashes, restarts, a clock that was set back, a disk that fails.

use std::collections::HashSet;
use std::fs;
use std::io::{Read, Write};
use std::net::{Ipv4Addr, TcpStream};
use std::sync::atomic::{AtomicBool, AtomicUsize, Ordering};
use std::sync::Arc;
use std::thread;
use std::time::{Duration, Instant};

use crate::support::*;

const MARK: &str = "next-creation";
const DAY: u32 = 86_400_000;

/// Registers and leaves. Nothing if the mapper is gone, or the name is still held.
fn visit(port: u16, name: &str) -> Option<u32> {
    let mut stream = TcpStream::connect((Ipv4Addr::LOCALHOST, port)).ok()?;
    stream.set_read_timeout(Some(PATIENCE)).ok()?;
    stream.write_all(&alive2(name, 9)).ok()?;
    let mut reply = [0; 6];
    stream.read_exact(&mut reply).ok()?;
    let creation = u32::from_be_bytes([reply[2], reply[3], reply[4], reply[5]]);
    (reply[1] == 0).then_some(creation)
}

/// Registrations as fast as some clients can, while `during` runs, which is told how many there
/// were; the creations that they got.
fn storm(port: u16, during: impl FnOnce(&AtomicUsize)) -> Vec<u32> {
    let (over, count) = (AtomicBool::new(false), AtomicUsize::new(0));
    thread::scope(|scope| {
        let client = |client: usize| {
            let name = format!("storm{client}");
            let mut given = Vec::new();
            while !over.load(Ordering::Relaxed) {
                given.extend(visit(port, &name));
                count.fetch_add(1, Ordering::Relaxed);
            }
            given
        };
        let clients: Vec<_> = (0..4).map(|at| scope.spawn(move || client(at))).collect();
        during(&count);
        over.store(true, Ordering::Relaxed);
        let given = clients.into_iter().flat_map(|it| it.join().unwrap());
        given.collect()
    })
}

/// The clock's number stands still, behind where the numbers come round, so that the mark alone
/// keeps them apart. The last storm but one is longer than a block.
#[test]
fn a_crash_at_any_point_of_a_storm_brings_no_creation_back() {
    let words = ["--first-creation", "4294937296", "--quiet"];
    let mut mapper = Mapper::start(&words);
    let mut seen = HashSet::new();
    for (pause, least) in [(40, 0), (330, 0), (7, 0), (150, 0), (0, 20_000), (90, 0)] {
        let given = storm(mapper.port, |count| {
            thread::sleep(Duration::from_millis(pause));
            eventually("a storm", || count.load(Ordering::Relaxed) >= least);
            mapper.process.signal("KILL");
            mapper.process.wait();
        });
        for creation in given {
            assert!(creation > 0 && seen.insert(creation), "{creation} again");
        }
        mapper = Mapper::with_state(Arc::clone(&mapper.state), 0, &words);
    }
    println!("{} registrations over 6 crashes", seen.len());
}

#[test]
fn a_clock_set_back_by_a_day_brings_no_creation_back() {
    let clock = clock_number();
    let ahead = clock.wrapping_add(DAY).max(1);
    let mut first = Mapper::start(&["--first-creation", &ahead.to_string()]);
    let (_node, before) = register(first.port, "ride", 4370);
    assert_eq!(before, ahead);
    first.process.signal("KILL");
    first.process.wait();
    // By its clock it is a day earlier than the mark says.
    let second = Mapper::with_state(Arc::clone(&first.state), 0, &[]);
    let (_node, after) = register(second.port, "ride", 4370);
    let steps = after.wrapping_sub(before);
    assert!((1..DAY / 2).contains(&steps), "{before} {after}");
}

#[test]
fn a_clock_that_went_on_is_followed() {
    let behind = clock_number().wrapping_sub(DAY).max(1);
    let mut first = Mapper::start(&["--first-creation", &behind.to_string()]);
    first.process.signal("TERM");
    first.process.wait();
    let second = Mapper::with_state(Arc::clone(&first.state), 0, &[]);
    let (_node, after) = register(second.port, "ride", 4370);
    let steps = after.wrapping_sub(behind);
    assert!((DAY - 1..DAY + 600_000).contains(&steps), "{steps}");
}

/// The number that the program takes from the clock.
fn clock_number() -> u32 {
    let since = std::time::SystemTime::now().duration_since(std::time::UNIX_EPOCH);
    since.unwrap().as_millis() as u32
}

/// Runs it with a state that it must not start with: one line that says why.
fn refuses(state: &Folder, words: &str) {
    let output = run(&["--port", "0", "--state-dir", state.path()]);
    assert_eq!(output.status.code(), Some(1));
    let message = text(&output.stderr[..]);
    assert_eq!(message.lines().count(), 1, "{message}");
    assert!(message.contains(words) && message.contains(state.path()));
    assert!(output.stdout.is_empty());
}

#[test]
fn a_mark_that_was_cut_or_changed_ends_the_start() {
    let mut mapper = Mapper::start(&[]);
    mapper.process.signal("TERM");
    mapper.process.wait();
    let (state, path) = (&mapper.state, mapper.state.file(MARK));
    let whole = fs::read(&path).unwrap();
    for cut in [0, 1, whole.len() / 2, whole.len() - 1] {
        fs::write(&path, &whole[..cut]).unwrap();
        refuses(state, "damaged");
    }
    let changed = String::from_utf8(whole.clone()).unwrap();
    fs::write(&path, changed.replace("next-creation ", "next-creation 1")).unwrap();
    refuses(state, "damaged");
    fs::write(&path, &whole).unwrap();
    Mapper::with_state(Arc::clone(state), 0, &[]);
}

#[test]
fn a_state_that_cannot_be_written_ends_the_start() {
    let state = Folder::new();
    fs::create_dir(state.file("next-creation.new")).unwrap();
    refuses(&state, "cannot write");
    let nowhere = run(&["--port", "0", "--state-dir", "/proc/none"]);
    assert_eq!(nowhere.status.code(), Some(1));
    assert!(text(&nowhere.stderr[..]).contains("/proc/none"));
}

#[test]
fn two_mappers_do_not_share_a_mark() {
    let first = Mapper::start(&[]);
    refuses(&first.state, "--state-dir");
}

/// A thousand a second on average, from the start on: then the clock of a restart is ahead of all
/// that was given. Above that registrations wait, and nobody else does.
#[test]
fn without_a_mark_registrations_wait_for_the_clock() {
    let before = clock_number();
    let mut mapper = Mapper::start(&["--no-state", "--quiet"]);
    let given = storm(mapper.port, |_| {
        let start = Instant::now();
        while start.elapsed() < Duration::from_millis(700) {
            assert_eq!(ask(mapper.port, &port_please2("nobody")), b"w\x01");
        }
        mapper.process.signal("KILL");
        mapper.process.wait();
    });
    let all: HashSet<u32> = given.iter().copied().collect();
    let last = given.iter().map(|it| it.wrapping_sub(before)).max();
    let now = clock_number().wrapping_sub(before);
    assert_eq!(all.len(), given.len());
    assert!(given.len() > 100, "{}", given.len());
    assert!(last.unwrap() < now, "{last:?} {now}");
    assert!(!mapper.state.file(MARK).exists());
    let second = Mapper::start(&["--no-state"]);
    let (_node, after) = register(second.port, "ride", 4370);
    assert!(!all.contains(&after) && after.wrapping_sub(before) > last.unwrap());
}

#[test]
fn a_registration_that_waits_is_answered_in_its_turn_or_ends_with_its_caller() {
    let mapper = Mapper::start(&["--no-state"]);
    let callers: Vec<TcpStream> = (0..60)
        .map(|at| send(mapper.port, &alive2(&format!("n{at}"), at)))
        .collect();
    // Every third leaves without a word.
    for (at, mut stream) in callers.into_iter().enumerate() {
        if at % 3 > 0 {
            assert_eq!(read_exactly(&mut stream, 6)[..2], [118, 0]);
        }
    }
    eventually("all are gone", || names(mapper.port).is_empty());
}
