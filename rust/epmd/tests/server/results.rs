//! The Result of an ALIVE2 and its line in the log: 1 for a name in use, 2 for a connection that has
//! a registration, 3 for no place, in that order.

use std::io::Write;
use std::net::{Shutdown, TcpStream};

use crate::support::*;

const NAME_IN_USE: &str = "result=1 reason=\"the name is registered\"";
const CONNECTION_REGISTERED: &str = "result=2 reason=\"this connection has a registration\"";
const NO_PLACE: &str = "result=3 reason=\"all 64 places are taken\"";

/// An ALIVE2 of a node that speaks version 5 alone.
fn old_alive2(name: &str) -> Vec<u8> {
    alive2_of(4370, 77, 0, 5, 5, name.as_bytes(), b"")
}

/// Asks for a name that is not given, in both forms, which are all the failures that a connection
/// may have; then both lines are in the log.
fn fails(mapper: &Mapper, stream: &mut TcpStream, name: &str, result: u8, line: &str) {
    let before = failures(mapper, name, line);
    stream.write_all(&alive2(name, 4371)).unwrap();
    assert_eq!(read_exactly(stream, 6), [118, result, 0, 0, 0, 0], "{name}");
    stream.write_all(&old_alive2(name)).unwrap();
    let last = read_for(stream, PATIENCE);
    assert_eq!(last.bytes, [121, result, 0, 0], "{name}");
    assert!(last.closed);
    eventually("both are in the log", || {
        failures(mapper, name, line) == before + 2
    });
}

/// How many lines tell of a name that it was not registered, in these words.
fn failures(mapper: &Mapper, name: &str, line: &str) -> usize {
    let wanted = format!(" not-registered name={name} {line} peer=");
    let lines = mapper.process.lines();
    lines.iter().filter(|it| it.contains(&wanted)).count()
}

/// All 64 places are taken, by n0 to n63.
fn full(mapper: &Mapper) -> Vec<TcpStream> {
    let name = |at: u16| format!("n{at}");
    (0..64)
        .map(|at| register(mapper.port, &name(at), at).0)
        .collect()
}

#[test]
fn a_name_in_use_is_1_whoever_asks() {
    let mapper = Mapper::start(&[]);
    let [mut ride, mut other] = ["ride", "other"].map(|it| register(mapper.port, it, 1).0);
    let mut stranger = connect(mapper.port);
    fails(&mapper, &mut stranger, "ride", 1, NAME_IN_USE);
    // A node, with the name of another, and with its own.
    fails(&mapper, &mut other, "ride", 1, NAME_IN_USE);
    fails(&mapper, &mut ride, "ride", 1, NAME_IN_USE);
}

#[test]
fn a_new_name_on_a_connection_that_has_a_node_is_2() {
    let mapper = Mapper::start(&[]);
    let (mut node, _) = register(mapper.port, "ride", 4370);
    fails(&mapper, &mut node, "other", 2, CONNECTION_REGISTERED);
}

#[test]
fn no_place_is_3_for_a_stranger_with_a_new_name_alone() {
    let mapper = Mapper::start(&[]);
    let mut nodes = full(&mapper);
    fails(&mapper, &mut connect(mapper.port), "late", 3, NO_PLACE);
    fails(&mapper, &mut connect(mapper.port), "n9", 1, NAME_IN_USE);
    // Each of these is the last reply of its connection, and frees a place.
    let mut node = nodes.pop().unwrap();
    fails(&mapper, &mut node, "late", 2, CONNECTION_REGISTERED);
    eventually("n63 is gone", || names(mapper.port).len() == 63);
    nodes.push(register(mapper.port, "last", 9).0);
    fails(&mapper, &mut nodes[9], "n9", 1, NAME_IN_USE);
}

#[test]
fn the_log_as_json_has_the_number_and_the_meaning() {
    let mapper = Mapper::start(&["--json"]);
    let (mut node, _) = register(mapper.port, "ride", 4370);
    node.write_all(&alive2("other", 4371)).unwrap();
    let line = mapper.process.line_with("not-registered");
    let wanted =
        "\"name\":\"other\",\"result\":2,\"reason\":\"this connection has a registration\"";
    assert!(line.contains(wanted), "{line}");
}

/// Which nodes left and which were not registered, in the order of the log, once there are so many.
fn events(mapper: &Mapper, count: usize) -> Vec<String> {
    let told = || -> Vec<String> {
        let lines = mapper.process.lines();
        let words = lines.iter().map(|it| it.split(' ').skip(1).take(2));
        let events = words.map(|it| it.collect::<Vec<&str>>().join(" "));
        events
            .filter(|it| it.starts_with("left ") || it.starts_with("not-registered "))
            .collect()
    };
    eventually("the log tells of all", || told().len() >= count);
    told()
}

/// What a connection is answered whose ALIVE2 comes first, and is read when another connection has
/// ended, of which nothing has been read yet.
fn asks_as_another_ends(
    mapper: &Mapper,
    asker: &mut TcpStream,
    requests: &[u8],
    ends: &TcpStream,
    count: usize,
) -> Vec<u8> {
    mapper.process.while_stopped(|| {
        asker.write_all(requests).unwrap();
        ends.shutdown(Shutdown::Both).unwrap();
    });
    read_exactly(asker, count)
}

/// A connection that is in the poll, so that its turn comes as its bytes do.
fn known(mapper: &Mapper) -> TcpStream {
    let mut stream = connect(mapper.port);
    assert!(is_open(&mut stream));
    stream
}

#[test]
fn a_name_whose_node_has_just_ended_is_not_in_use() {
    let mapper = Mapper::start(&[]);
    let (ride, _) = register(mapper.port, "ride", 1);
    let mut stranger = known(&mapper);
    let request = alive2("ride", 2);
    let reply = asks_as_another_ends(&mapper, &mut stranger, &request, &ride, 6);
    assert_eq!(reply[..2], [118, 0]);
    // So a connection that has a node is told of its own, and not of the name.
    let (mut other, _) = register(mapper.port, "other", 3);
    let reply = asks_as_another_ends(&mapper, &mut other, &request, &stranger, 6);
    assert_eq!(reply, [118, 2, 0, 0, 0, 0]);
    let told = events(&mapper, 3);
    let wanted = [
        "left name=ride",
        "left name=ride",
        "not-registered name=ride",
    ];
    assert_eq!(told, wanted);
    assert_eq!(failures(&mapper, "ride", CONNECTION_REGISTERED), 1);
}

/// The second of two requests in one segment is answered by what is true of its own name.
#[test]
fn the_name_behind_one_in_use_is_free_if_its_node_has_just_ended() {
    let mapper = Mapper::start(&[]);
    let [_ride, gone] = ["ride", "gone"].map(|it| register(mapper.port, it, 1).0);
    let mut stranger = known(&mapper);
    let both = [alive2("ride", 2), alive2("gone", 2)].concat();
    let replies = asks_as_another_ends(&mapper, &mut stranger, &both, &gone, 12);
    assert_eq!(replies[..8], [118, 1, 0, 0, 0, 0, 118, 0]);
}

#[test]
fn a_place_whose_node_has_just_ended_is_free() {
    let mapper = Mapper::start(&[]);
    let nodes = full(&mapper);
    let mut stranger = known(&mapper);
    let request = alive2("late", 9);
    let reply = asks_as_another_ends(&mapper, &mut stranger, &request, &nodes[63], 6);
    assert_eq!(reply[..2], [118, 0]);
}

/// A stranger cannot have the connections of all nodes looked at, but where the answer hangs on
/// them: the end of n5 is seen in its turn, behind the answer.
#[test]
fn a_name_in_use_or_an_own_node_has_nobody_else_looked_at() {
    let mapper = Mapper::start(&[]);
    let mut nodes = full(&mapper);
    let mut stranger = known(&mapper);
    let request = alive2("n9", 9);
    let reply = asks_as_another_ends(&mapper, &mut stranger, &request, &nodes[5], 6);
    assert_eq!(reply, [118, 1, 0, 0, 0, 0]);
    assert_eq!(
        events(&mapper, 2),
        ["not-registered name=n9", "left name=n5"]
    );
    let (node, ends) = nodes.split_at_mut(7);
    let request = alive2("new", 9);
    let reply = asks_as_another_ends(&mapper, &mut node[6], &request, &ends[0], 6);
    assert_eq!(reply, [118, 2, 0, 0, 0, 0]);
    let told = events(&mapper, 4);
    assert_eq!(told[2..], ["not-registered name=new", "left name=n7"]);
}

/// Its own end, which has come behind the request, does not keep a node from its answer.
#[test]
fn a_node_that_asks_for_its_own_name_and_ends_is_answered() {
    let mapper = Mapper::start(&[]);
    let (mut node, _) = register(mapper.port, "ride", 4370);
    mapper.process.while_stopped(|| {
        node.write_all(&alive2("ride", 4370)).unwrap();
        node.shutdown(Shutdown::Write).unwrap();
    });
    let reply = read_for(&mut node, PATIENCE);
    assert_eq!(
        (&reply.bytes[..], reply.closed),
        (&[118, 1, 0, 0, 0, 0][..], true)
    );
    let told = events(&mapper, 2);
    assert_eq!(told, ["not-registered name=ride", "left name=ride"]);
}
