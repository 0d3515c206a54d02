use super::*;
use crate::help::HELP;

fn parse_in(line: &str, environment: &[(&str, &str)]) -> Result<Task, String> {
    let words = line.split_whitespace().map(str::to_string);
    parse(words, |name| {
        let found = environment.iter().find(|(key, _)| *key == name);
        found.map(|(_, value)| value.to_string())
    })
}

fn parse_line(line: &str) -> Result<Task, String> {
    parse_in(line, &[("HOME", "/home/u")])
}

fn served(line: &str) -> Options {
    served_in(line, &[("HOME", "/home/u")])
}

fn served_in(line: &str, environment: &[(&str, &str)]) -> Options {
    match parse_in(line, environment) {
        Ok(Task::Serve(options)) => options,
        other => panic!("{line}: {other:?}"),
    }
}

fn texts(addresses: &[IpAddr]) -> Vec<String> {
    addresses.iter().map(IpAddr::to_string).collect()
}

#[test]
fn defaults_are_those_of_the_help() {
    let options = served("");
    assert!(options.listen.is_empty() && options.first_creation.is_none());
    assert_eq!((options.port, options.max_connections), (4369, 512));
    assert_eq!(options.idle_timeout, Duration::from_secs(60));
    let Keepalive {
        idle,
        interval,
        count,
    } = options.keepalive;
    assert_eq!((idle, interval, count), (60, 15, 4));
    assert!(!options.quiet && !options.json && !options.allow_remote);
    for number in ["4369", "512", "60", "15", "4 questions"] {
        assert!(HELP.contains(number), "{number}");
    }
}

#[test]
fn values_stand_behind_an_equals_sign_or_next() {
    let words = "--address ::1 --port=0 --first-creation 4294967295 --max-connections=7 \
                 --idle-timeout 0.25 --keepalive-idle 1 --keepalive-interval=2 \
                 --keepalive-count 3 --state-dir=/a/b --quiet --json --allow-remote-registration";
    let options = served(words);
    assert_eq!(texts(&options.listen), ["::1"]);
    assert_eq!((options.port, options.first_creation), (0, Some(u32::MAX)));
    assert_eq!(options.max_connections, 7);
    assert_eq!(options.idle_timeout, Duration::from_millis(250));
    let times = Keepalive {
        idle: 1,
        interval: 2,
        count: 3,
    };
    assert_eq!(options.keepalive, times);
    assert_eq!(options.state, State::Folder("/a/b".into()));
    assert!(options.quiet && options.json && options.allow_remote);
}

#[test]
fn addresses_are_given_again_or_as_a_list() {
    let options = served("--address 192.0.2.1,::1 --address=192.0.2.2");
    assert_eq!(texts(&options.listen), ["192.0.2.1", "::1", "192.0.2.2"]);
}

#[test]
fn the_environment_counts_where_no_option_is_given() {
    let epmd = [
        ("HOME", "/home/u"),
        ("ERL_EPMD_PORT", "14700"),
        ("ERL_EPMD_ADDRESS", "192.0.2.1,192.0.2.2"),
    ];
    let options = served_in("", &epmd);
    assert_eq!(options.port, 14_700);
    assert_eq!(texts(&options.listen), ["192.0.2.1", "192.0.2.2"]);
    let options = served_in("--port 9 --address ::1", &epmd);
    assert_eq!(
        (options.port, texts(&options.listen)),
        (9, vec!["::1".to_string()])
    );
    let asked = parse_in("--names", &epmd);
    let loopback = |it: &Options| it.address.is_loopback();
    assert!(matches!(asked, Ok(Task::Names(it)) if it.port == 14_700 && loopback(&it)));
    let empty = [
        ("HOME", "/home/u"),
        ("ERL_EPMD_PORT", ""),
        ("ERL_EPMD_ADDRESS", ""),
    ];
    assert_eq!(served_in("", &empty), served(""));
    for bad in [("ERL_EPMD_PORT", "x"), ("ERL_EPMD_ADDRESS", "host")] {
        let message = parse_in("", &[bad]).expect_err(bad.0);
        assert!(message.starts_with(bad.0), "{message}");
    }
}

#[test]
fn the_state_is_kept_where_the_environment_says() {
    let folder = |environment: &[(&str, &str)]| served_in("", environment).state;
    let (home, xdg) = (("HOME", "/home/u"), ("XDG_STATE_HOME", "/x"));
    let service = ("STATE_DIRECTORY", "/var/lib/private/e:/other");
    let at = |path: &str| State::Folder(path.into());
    assert_eq!(folder(&[home, xdg, service]), at("/var/lib/private/e"));
    assert_eq!(folder(&[home, xdg]), at("/x/birken-epmd"));
    assert_eq!(folder(&[home]), at("/home/u/.local/state/birken-epmd"));
    // By the specification a relative path does not count.
    let relative = ("XDG_STATE_HOME", "x");
    assert_eq!(folder(&[home, relative]), folder(&[home]));
    assert!(parse_in("", &[]).is_err());
    assert_eq!(served_in("--no-state", &[]).state, State::None);
    assert_eq!(served("--no-state --state-dir /a").state, at("/a"));
}

#[test]
fn sockets_are_taken_over_when_they_are_meant_for_this_process() {
    let (home, id) = (("HOME", "/home/u"), std::process::id().to_string());
    let ours = [home, ("LISTEN_PID", id.as_str()), ("LISTEN_FDS", "2")];
    assert_eq!(served_in("", &ours).handed_over, 2);
    let others = [home, ("LISTEN_PID", "1"), ("LISTEN_FDS", "2")];
    assert_eq!(served_in("", &others).handed_over, 0);
    assert!(parse_in("--port 9", &ours).is_err());
    assert!(parse_in("", &[ours[0], ours[1], ("LISTEN_FDS", "x")]).is_err());
}

#[test]
fn who_asks_takes_only_what_concerns_asking() {
    let words = "--address 127.0.0.9 --port 14700 --json --quiet";
    let right =
        |it: &Options| it.port == 14_700 && it.json && it.address.to_string() == "127.0.0.9";
    let task = parse_line(&format!("--names {words}"));
    assert!(matches!(task, Ok(Task::Names(it)) if right(&it)));
    let task = parse_line(&format!("{words} --port-of ride"));
    assert!(matches!(task, Ok(Task::PortOf(name, it)) if name == "ride" && right(&it)));
    for asks in ["--names", "--port-of ride"] {
        for bad in [
            "--first-creation 4",
            "--no-state",
            "--allow-remote-registration",
            "--port 0",
            "--address ::1,127.0.0.1",
        ] {
            let message = parse_line(&format!("{asks} {bad}")).expect_err(bad);
            let option = asks.split(' ').next().unwrap();
            assert!(message.contains(option), "{message}");
        }
    }
    assert!(parse_line("--names --port-of ride").is_err());
}

#[test]
fn a_name_asked_for_is_taken_as_it_stands() {
    for name in ["", "a=b", "--names", "ride@host", "é"] {
        let words = ["--port-of".to_string(), name.to_string()];
        let task = parse(words, |_| None);
        assert!(
            matches!(task, Ok(Task::PortOf(it, _)) if it == name),
            "{name}"
        );
        let task = parse([format!("--port-of={name}")], |_| None);
        assert!(
            matches!(task, Ok(Task::PortOf(it, _)) if it == name),
            "{name}"
        );
    }
    assert!(parse_line("--port-of").is_err());
}

#[test]
fn bad_words_get_one_line() {
    for words in [
        "--prot 4369",
        "4369",
        "--port",
        "--port 65536",
        "--port -1",
        "--port x",
        "--address localhost",
        "--address 127.0.0.1,",
        "--address",
        "--state-dir",
        "--state-dir=",
        "--no-state=yes",
        "--first-creation 0",
        "--first-creation 4294967296",
        "--max-connections 0",
        "--idle-timeout 0",
        "--idle-timeout -5",
        "--idle-timeout NaN",
        "--idle-timeout inf",
        "--keepalive-idle 0",
        "--keepalive-count 128",
        "--quiet=yes",
    ] {
        let message = parse_line(words).expect_err(words);
        assert!(!message.is_empty() && !message.contains('\n'), "{message}");
    }
}

#[test]
fn help_and_version_win() {
    assert_eq!(parse_line("--port 9 --help"), Ok(Task::Help));
    assert_eq!(parse_line("--version"), Ok(Task::Version));
}
