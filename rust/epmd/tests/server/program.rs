//! Options, signals, the log, `--names`, `--port-of`.

use std::io::Write;
use std::sync::Arc;

use crate::support::*;

#[test]
fn sigterm_and_sigint_end_it_with_status_0() {
    for signal in ["TERM", "INT"] {
        let mut mapper = Mapper::start(&[]);
        let (mut node, _) = register(mapper.port, "ride", 4370);
        let mut unfinished = send(mapper.port, b"\x00\x05z");
        assert!(is_open(&mut unfinished));
        mapper.process.signal(signal);
        assert_eq!(mapper.process.wait().code(), Some(0));
        assert!(read_for(&mut node, PATIENCE).closed);
        let line = mapper.process.line_with("stopped");
        assert!(
            line.ends_with(&format!("signal=SIG{signal} nodes=1")),
            "{line}"
        );
    }
}

#[test]
fn bad_options_get_one_line_and_status_2() {
    for words in [
        &["--prot", "1"][..],
        &["--port"],
        &["--first-creation", "0"],
        &["x"],
    ] {
        let output = run(words);
        assert_eq!(output.status.code(), Some(2), "{words:?}");
        assert!(output.stdout.is_empty());
        let message = text(&output.stderr[..]);
        assert!(message.starts_with("birken-epmd: ") && message.lines().count() == 1);
    }
}

#[test]
fn help_and_version_are_printed() {
    let help = run(&["--help"]);
    assert!(help.status.success() && text(&help.stdout[..]).contains("--first-creation"));
    let version = run(&["--version"]);
    assert!(version.status.success());
    assert!(text(&version.stdout[..]).starts_with("birken-epmd 0."));
}

#[test]
fn a_port_that_is_taken_gets_one_line_and_status_1() {
    let mapper = Mapper::start(&[]);
    let output = run(&["--port", &mapper.port.to_string()]);
    assert_eq!(output.status.code(), Some(1));
    assert_eq!(text(&output.stderr[..]).lines().count(), 1);
}

#[test]
fn a_restart_on_the_same_port_gives_new_creations() {
    let mut first = Mapper::start(&[]);
    let (_node, before) = register(first.port, "ride", 4370);
    first.process.signal("TERM");
    first.process.wait();
    let second = Mapper::with_state(Arc::clone(&first.state), first.port, &[]);
    let (_node, after) = register(second.port, "ride", 4370);
    assert!(
        after.wrapping_sub(before) < 1 << 24 && after != before,
        "{before} {after}"
    );
}

#[test]
fn sighup_is_ignored_with_a_line() {
    let mut mapper = Mapper::start(&[]);
    let (mut node, _) = register(mapper.port, "ride", 4370);
    mapper.process.signal("HUP");
    mapper.process.line_with("ignored signal=SIGHUP");
    assert!(is_open(&mut node) && mapper.process.is_running());
    mapper.process.signal("TERM");
    assert_eq!(mapper.process.wait().code(), Some(0));
}

#[test]
fn who_asks_gets_names_and_ports() {
    let mapper = Mapper::start(&[]);
    let port = mapper.port.to_string();
    let ask = |words: &[&str]| {
        let output = run(&[&["--port", &port], words].concat());
        assert!(output.status.success());
        text(&output.stdout[..])
    };
    assert_eq!(ask(&["--names"]), "NAME   PORT\n");
    let _ride = register(mapper.port, "ride", 4370);
    assert_eq!(ask(&["--names"]), "NAME   PORT\nride   4370\n");
    let json = "\"names\":[{\"name\":\"ride\",\"port\":4370}]}\n";
    assert_eq!(
        ask(&["--names", "--json"]),
        format!("{{\"port\":{port},{json}")
    );
    let _other = register(mapper.port, "é\n", 80);
    let lines = "name ride at port 4370\nname é\n at port 80\n";
    assert_eq!(ask(&["--names"]), lines);
    let json = format!("\"ambiguous\":true,\"text\":{lines:?}}}\n");
    assert_eq!(
        ask(&["--names", "--json"]),
        format!("{{\"port\":{port},{json}")
    );
    assert_eq!(ask(&["--port-of", "ride"]), "4370\n");
    assert_eq!(ask(&["--port-of", "é\n"]), "80\n");
    let output = run(&["--port", &port, "--port-of", "rid"]);
    assert_eq!(output.status.code(), Some(1));
    assert!(text(&output.stderr[..]).contains("registered as rid "));
}

#[test]
fn where_nobody_listens_who_asks_gets_one_line_and_status_1() {
    for words in [&["--names"][..], &["--port-of", "ride"]] {
        let output = run(&[words, &["--port", &free_port().to_string()]].concat());
        assert_eq!(output.status.code(), Some(1));
        assert_eq!(text(&output.stderr[..]).lines().count(), 1);
    }
}

#[test]
fn the_log_tells_who_came_and_who_left() {
    let mapper = Mapper::start(&["--first-creation", "77"]);
    let (node, _) = register(mapper.port, "ride", 4370);
    let peer = node.local_addr().unwrap();
    drop(node);
    let about = format!("name=ride port=4370 creation=77 peer={peer} connection=1");
    assert!(mapper.process.line_with("registered").ends_with(&about));
    let about = about.replace(" peer", " reason=\"connection ended\" peer");
    assert!(mapper.process.line_with("left").ends_with(&about));
}

#[test]
fn the_json_log_has_one_object_a_line_whatever_a_name_holds() {
    let mapper = Mapper::start(&["--json", "--first-creation", "77"]);
    let (mut node, _) = register(mapper.port, "a\"\\\n\u{1b}é", 4370);
    let peer = node.local_addr().unwrap();
    node.write_all(&frame(b"k")).unwrap();
    let about = format!("\"peer\":\"{peer}\",\"connection\":1}}");
    let name = "\"name\":\"a\\\"\\\\\\n\\u001bé\",\"port\":4370,\"creation\":77";
    let line = mapper.process.line_with("\"left\"");
    assert!(line.starts_with("{\"time\":\"20"), "{line}");
    assert!(line.ends_with(&format!(
        "Z\",\"event\":\"left\",{name},\"reason\":\"refused\",{about}"
    )));
    let line = mapper.process.line_with("\"refused\"");
    let meaning = "\"refusal\":8,\"meaning\":\"DUMP, KILL and STOP are not served\"";
    assert!(line.contains(meaning) && line.ends_with(&about), "{line}");
    let lines = mapper.process.lines();
    let other = |line: &&String| !line.contains("\"listening\"");
    assert_eq!(lines.iter().filter(other).count(), 3, "{lines:?}");
}

#[test]
fn quiet_says_only_the_port_that_was_picked() {
    let mapper = Mapper::start(&["--quiet"]);
    let (node, _) = register(mapper.port, "ride", 4370);
    drop(node);
    assert_eq!(ask(mapper.port, &frame(b"k")), b"");
    eventually("ride is gone", || names(mapper.port).is_empty());
    assert_eq!(mapper.process.lines().len(), 1);
}
