//! Requests that are sent to both mappers, each to a mapper without names.

use std::time::Duration;

use crate::support::*;

pub struct Case {
    pub name: &'static str,
    /// Registered before, each on a connection of its own.
    pub before: Vec<Vec<u8>>,
    /// Sent on one connection.
    pub segments: Vec<Vec<u8>>,
    /// Between the segments.
    pub pause: Duration,
}

fn case(name: &'static str, request: Vec<u8>) -> Case {
    Case {
        name,
        before: Vec::new(),
        segments: vec![request],
        pause: Duration::ZERO,
    }
}

impl Case {
    fn after(mut self, before: &[Vec<u8>]) -> Case {
        self.before = before.to_vec();
        self
    }

    /// In segments that arrive apart.
    fn then(mut self, next: Vec<u8>) -> Case {
        self.segments.push(next);
        self.pause = Duration::from_millis(100);
        self
    }
}

fn of_versions(highest: u16, lowest: u16) -> Vec<u8> {
    alive2_of(4370, 77, 0, highest, lowest, b"ride", b"")
}

fn of_name(name: &[u8]) -> Vec<u8> {
    alive2_of(4370, 77, 0, 6, 5, name, b"")
}

fn of_extra(length: usize) -> Vec<u8> {
    alive2_of(4370, 77, 0, 6, 5, b"ride", &vec![b'e'; length])
}

fn many(count: u16) -> Vec<Vec<u8>> {
    (0..count).map(|at| alive2(&format!("n{at}"), at)).collect()
}

fn long(tag: u8) -> Vec<u8> {
    let mut body = vec![b'u'; 65_535];
    body[0] = tag;
    frame(&body)
}

pub fn cases() -> Vec<Case> {
    // First, since the real epmd's reply has the names of all cases before.
    let mut all = vec![case("DUMP", frame(b"d"))];
    all.extend(registrations());
    all.extend(name_rules());
    all.extend(questions());
    all.extend(connections());
    all.extend(behind_alive2());
    all.extend(not_served());
    all
}

fn registrations() -> Vec<Case> {
    let ride = alive2("ride", 4370);
    let many = many(64);
    let mut trailing = ride.clone();
    trailing.push(b'X');
    trailing[1] += 1;
    let mut no_extra = ride.clone();
    no_extra.truncate(ride.len() - 2);
    no_extra[1] -= 2;
    let mut long_name = ride.clone();
    long_name[12] = 9;
    vec![
        case("ALIVE2", ride.clone()),
        case("ALIVE2 of a name taken", ride.clone()).after(&[alive2("ride", 1)]),
        case("ALIVE2, version 5", of_versions(5, 5)),
        case("ALIVE2, version 5, of a name taken", of_versions(5, 5)).after(&[ride]),
        case("ALIVE2, highest 4", of_versions(4, 4)),
        case("ALIVE2, lowest 7", of_versions(7, 7)),
        case("ALIVE2, lowest above highest", of_versions(5, 6)),
        case("ALIVE2, highest 9", of_versions(9, 6)),
        case(
            "ALIVE2, other type, protocol and port 0",
            alive2_of(0, 1, 9, 6, 5, b"ride", b""),
        ),
        case("ALIVE2, extra of 128", of_extra(128)),
        case("ALIVE2, extra of 129", of_extra(129)),
        case("ALIVE2, extra of 1024", of_extra(1024)),
        case("ALIVE2, a byte behind extra", trailing),
        case("ALIVE2 without extra's length", no_extra),
        case("ALIVE2, name longer than the frame", long_name),
        case("ALIVE2 as the 65th", alive2("late", 9)).after(&many),
        case("ALIVE2, version 5, as the 65th", of_versions(5, 5)).after(&many),
        case("ALIVE2 of a name taken, as the 65th", alive2("n9", 9)).after(&many),
    ]
}

fn name_rules() -> Vec<Case> {
    vec![
        case("name of no bytes", of_name(b"")),
        case("name with @", of_name(b"a@b")),
        case("name with a zero byte", of_name(b"a\0b")),
        case("name in UTF-8", of_name("é".as_bytes())),
        case("name not in UTF-8", of_name(b"\xff\xfe")),
        case("name of 255 bytes", of_name(&[b'u'; 255])),
        case("name of 256 bytes", of_name(&[b'u'; 256])),
        case("name of 1021 bytes", of_name(&[b'u'; 1021])),
    ]
}

fn questions() -> Vec<Case> {
    let ride = [alive2("ride", 4370)];
    let two = [alive2("ride", 4370), alive2("other", 4371)];
    let with_extra = [of_extra(128)];
    let long_name = "u".repeat(255);
    vec![
        case("NAMES of nobody", NAMES.to_vec()),
        case("NAMES of one", NAMES.to_vec()).after(&ride),
        case("NAMES of two", NAMES.to_vec()).after(&two),
        case("NAMES with a byte behind", frame(b"nX")).after(&ride),
        case("PORT_PLEASE2", port_please2("ride")).after(&two),
        case("PORT_PLEASE2, with extra", port_please2("ride")).after(&with_extra),
        case("PORT_PLEASE2 of nobody", port_please2("rid")).after(&ride),
        case("PORT_PLEASE2 without a name", port_please2("")),
        case(
            "PORT_PLEASE2, zero byte behind the name",
            port_please2("ride\0"),
        )
        .after(&ride),
        case("PORT_PLEASE2 of 254 bytes", port_please2(&long_name[1..])),
        case("PORT_PLEASE2 of 255 bytes", port_please2(&long_name)).after(&[alive2(&long_name, 1)]),
        case("PORT_PLEASE2 with @", port_please2("a@b")),
    ]
}

fn connections() -> Vec<Case> {
    let taken = [alive2("ride", 4370)];
    let ask = port_please2("ride");
    let byte_by_byte = |request: &[u8]| Case {
        segments: request.iter().map(|&byte| vec![byte]).collect(),
        pause: Duration::from_millis(5),
        ..case("PORT_PLEASE2 byte by byte", Vec::new())
    };
    vec![
        byte_by_byte(&ask).after(&taken),
        case("two requests in one segment", [&ask[..], NAMES].concat()).after(&taken),
        case("two requests apart", ask.clone())
            .then(NAMES.to_vec())
            .after(&taken),
        case(
            "ALIVE2 and NAMES in one segment",
            [&alive2("ride", 4370)[..], NAMES].concat(),
        ),
    ]
}

fn behind_alive2() -> Vec<Case> {
    let (ride, other) = (alive2("ride", 4370), alive2("other", 4371));
    let old_other = alive2_of(4371, 77, 0, 5, 5, b"other", b"");
    let taken = [ride.clone()];
    vec![
        case("ALIVE2, then ALIVE2", ride.clone()).then(other.clone()),
        case("ALIVE2, version 5, twice", of_versions(5, 5)).then(old_other),
        case("ALIVE2, then ALIVE2 of its own name", ride.clone()).then(ride.clone()),
        case("ALIVE2, then ALIVE2 of a name taken", other.clone())
            .then(ride.clone())
            .after(&taken),
        case("ALIVE2 as the 64th, then ALIVE2", ride.clone())
            .then(other.clone())
            .after(&many(63)),
        case("ALIVE2, then NAMES", ride.clone()).then(NAMES.to_vec()),
        case("ALIVE2, then PORT_PLEASE2", ride.clone()).then(port_please2("ride")),
        case("ALIVE2, then an unknown tag", ride.clone()).then(frame(b"?")),
        case("ALIVE2 of a name taken, then ALIVE2", ride.clone())
            .then(other)
            .after(&taken),
        case("ALIVE2 of a name taken, three times", ride.clone())
            .then(ride.clone())
            .then(ride)
            .after(&taken),
    ]
}

fn not_served() -> Vec<Case> {
    let ride = [alive2("ride", 4370)];
    vec![
        case("frame of no bytes", frame(b"")),
        case("unknown tag 200", frame(b"\xc8")),
        case("tag 112, an old PORT_PLEASE", frame(b"pride")),
        case("tag 97, an old ALIVE", frame(b"a\x11\x11ride")),
        case("KILL while a node is registered", frame(b"k")).after(&ride),
        case("STOP", frame(b"sride")).after(&ride),
        case("65,537 bytes of PORT_PLEASE2", long(b'z')),
        case("65,537 bytes of NAMES", long(b'n')),
        case("65,537 bytes of an unknown tag", long(b'?')),
    ]
}
