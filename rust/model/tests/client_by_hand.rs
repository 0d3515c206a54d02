//! A node's end of the mapper on frames and replies made by hand, from the words of 01 and 02.

use model::{alive2_request, names_request, port_please2_request, Node};
use model::{read_alive2, read_names, read_port2, Alive2Reply, Port2Reply, Refusal};

const RIDE: Node = Node {
    port: 4370,
    kind: 77,
    protocol: 0,
    highest: 6,
    lowest: 5,
    name: b"ride",
    extra: b"",
};

/// What a writer writes to an output of this length, behind which nothing may change.
fn written<F>(room: usize, write: F) -> Result<Vec<u8>, Refusal>
where
    F: FnOnce(&mut [u8]) -> Result<usize, Refusal>,
{
    let mut out = vec![0xa5; room];
    let told = write(&mut out);
    let kept = *told.as_ref().unwrap_or(&0);
    assert!(out[kept..].iter().all(|byte| *byte == 0xa5));
    told.map(|length| out[..length].to_vec())
}

fn alive2(node: Node, room: usize) -> Result<Vec<u8>, Refusal> {
    written(room, |out| alive2_request(&node, out))
}

#[test]
fn requests_are_01s_frames() {
    let c1 = b"\x00\x11\x78\x11\x12\x4d\x00\x00\x06\x00\x05\x00\x04\x72\x69\x64\x65\x00\x00";
    assert_eq!(alive2(RIDE, 19).unwrap(), c1);
    assert_eq!(alive2(RIDE, 20).unwrap(), c1);
    let with_extra = Node {
        extra: b"ab",
        ..RIDE
    };
    assert_eq!(alive2(with_extra, 400).unwrap()[17..], *b"\x00\x02ab");
    let asked = written(7, |out| port_please2_request(b"ride", out));
    assert_eq!(asked.unwrap(), b"\x00\x05\x7a\x72\x69\x64\x65");
    assert_eq!(written(3, names_request).unwrap(), b"\x00\x01\x6e");
}

/// The mapper's order, and then the output.
#[test]
fn requests_are_refused_in_order() {
    let (long, longest, bytes) = (vec![b'n'; 256], vec![b'n'; 255], [7; 129]);
    let all_wrong = Node {
        name: &long,
        extra: &bytes,
        highest: 4,
        ..RIDE
    };
    assert_eq!(alive2(all_wrong, 0), Err(Refusal::BadLength));
    let name_wrong = Node {
        extra: &bytes[..128],
        ..all_wrong
    };
    assert_eq!(alive2(name_wrong, 0), Err(Refusal::BadName));
    let versions_wrong = Node {
        name: &longest,
        ..name_wrong
    };
    assert_eq!(alive2(versions_wrong, 0), Err(Refusal::BadVersions));
    let right = Node {
        highest: 5,
        ..versions_wrong
    };
    assert_eq!(alive2(right, 397), Err(Refusal::OutputTooShort));
    assert_eq!(alive2(right, 398).unwrap()[..3], [1, 140, 120]);
    let asked = |name: &[u8], room| written(room, |out| port_please2_request(name, out));
    assert_eq!(asked(b"ride@host", 0), Err(Refusal::BadName));
    assert_eq!(asked(&long, 0), Err(Refusal::BadName));
    assert_eq!(asked(&vec![b'n'; 65_536 + 4], 0), Err(Refusal::BadName));
    assert_eq!(asked(b"ride", 6), Err(Refusal::OutputTooShort));
    assert_eq!(written(2, names_request), Err(Refusal::OutputTooShort));
}

#[test]
fn alive2_replies() {
    let read = |reply: &[u8]| read_alive2(reply);
    let registered = |tag, creation| Ok(Alive2Reply::Registered { tag, creation });
    let error = |tag, result| Ok(Alive2Reply::Error { tag, result });
    assert_eq!(read(&[118, 0, 0, 0, 0, 4]), registered(118, 4));
    assert_eq!(read(&[118, 0, 1, 2, 3, 4]), registered(118, 0x0102_0304));
    assert_eq!(read(&[121, 0, 1, 2]), registered(121, 0x0102));
    assert_eq!(read(&[118, 1, 0, 0, 0, 0]), error(118, 1));
    assert_eq!(read(&[118, 1, 0, 0, 0, 99]), error(118, 1));
    assert_eq!(read(&[121, 255, 0, 0]), error(121, 255));
    for wrong in [&[][..], &[118], &[118, 1], &[118, 0, 0, 0, 0, 0, 0]] {
        assert_eq!(read(wrong), Err(Refusal::BadLength));
    }
    for wrong in [&[121, 0, 0, 0, 0, 4][..], &[121, 1], &[118, 0, 0, 0]] {
        assert_eq!(read(wrong), Err(Refusal::BadLength));
    }
    for wrong in [&[119][..], &[0, 0, 0, 0, 0, 0], &[120, 0, 0, 0]] {
        assert_eq!(read(wrong), Err(Refusal::UnknownTag));
    }
}

#[test]
fn port2_replies() {
    let c2 = b"\x77\x00\x11\x12\x4d\x00\x00\x06\x00\x05\x00\x04\x72\x69\x64\x65\x00\x00";
    let found = Port2Reply::Found {
        port: 4370,
        kind: 77,
        protocol: 0,
        highest: 6,
        lowest: 5,
        name: 12..16,
        extra: 18..18,
    };
    assert_eq!(read_port2(c2), Ok(found));
    for length in 0..c2.len() {
        assert_eq!(read_port2(&c2[..length]), Err(Refusal::BadLength));
    }
    let behind = [&c2[..], b"\0"].concat();
    assert_eq!(read_port2(&behind), Err(Refusal::BadLength));
    assert_eq!(read_port2(&[119, 1]), Ok(Port2Reply::Error { result: 1 }));
    assert_eq!(read_port2(&[119, 1, 0]), Err(Refusal::BadLength));
    assert_eq!(read_port2(&[118]), Err(Refusal::UnknownTag));
}

/// No name, versions of any kind, more than 128 extra bytes: told as they stand.
#[test]
fn port2_fields_are_not_examined() {
    let mut reply = b"\x77\x00\xff\xff\x01\x02\x00\x00\xff\xff\x00\x00\x00\x81".to_vec();
    reply.extend([0xee; 129]);
    let found = Port2Reply::Found {
        port: 65_535,
        kind: 1,
        protocol: 2,
        highest: 0,
        lowest: 65_535,
        name: 12..12,
        extra: 14..143,
    };
    assert_eq!(read_port2(&reply), Ok(found));
}

/// Own port and lines, as text; or the refusal's number.
fn names(reply: &[u8]) -> Result<String, u32> {
    let told = read_names(reply).map_err(Refusal::number)?;
    let line = |line: &model::NamesLine| {
        let name = reply[line.name.clone()].escape_ascii();
        format!(" {name}={}", line.port)
    };
    let lines: String = told.lines.iter().map(line).collect();
    Ok(format!("{}{lines}", told.port))
}

fn listed(text: &str) -> Result<String, u32> {
    names(&[&[0, 0, 0x11, 0x11], text.as_bytes()].concat())
}

#[test]
fn names_own_port() {
    assert_eq!(names(b"\x00\x00\xff\xff"), Ok("65535".to_string()));
    assert_eq!(names(b"\x00\x01\x00\x00"), Err(5));
    for length in 0..4 {
        assert_eq!(names(&vec![0; length]), Err(5));
    }
}

#[test]
fn names_with_one_reading() {
    for (text, told) in [
        ("", "4369"),
        ("name ride at port 4370\n", "4369 ride=4370"),
        ("name ride at port 0\n", "4369 ride=0"),
        ("name ride at port 65535\n", "4369 ride=65535"),
        ("name   at port 1\n", "4369  =1"),
        ("name \n at port 1\n", r"4369 \n=1"),
        ("name x at port 1 at port 2\n", "4369 x at port 1=2"),
        ("name x at port 01\n at port 2\n", r"4369 x at port 01\n=2"),
        ("name name x at port 1\n", "4369 name x=1"),
        // The first piece is no line of its own: it has no name.
        (
            "name  at port 1\nname x at port 2\n",
            r"4369  at port 1\nname x=2",
        ),
    ] {
        assert_eq!(listed(text).as_deref(), Ok(told), "{text:?}");
    }
}

#[test]
fn names_without_a_reading() {
    for text in [
        "\n",
        "name ride at port 4370",
        "name ride at port 4370\n\n",
        "name ride at port 4370\r\n",
        "name ride at port 04370\n",
        "name ride at port 00\n",
        "name ride at port +1\n",
        "name ride at port 65536\n",
        "name ride at port \n",
        "name  at port 1\n",
        "name at port 1\n",
        "name r@h at port 1\n",
        "name r\0h at port 1\n",
        "Name ride at port 1\n",
    ] {
        assert_eq!(listed(text), Err(5), "{text:?}");
    }
    assert_eq!(names(b"\x00\x00\x11\x11name \xff at port 1\n"), Err(5));
}

/// Two lines are also one, whose name has the newline in it, as long as that name is no longer than
/// 255 bytes.
#[test]
fn names_that_join() {
    assert_eq!(listed("name a at port 1\nname b at port 2\n"), Err(20));
    let two = |b: usize| format!("name a at port 1\nname {:b>b$} at port 2\n", "");
    assert_eq!(listed(&two(255 - 17)), Err(20));
    assert!(listed(&two(256 - 17)).unwrap().starts_with("4369 a=1 b"));
    // A name of 256 bytes is none, and these lines have no other reading.
    let one = |b: usize| format!("name a at port 01\nname {:b>b$} at port 2\n", "");
    assert!(listed(&one(255 - 18))
        .unwrap()
        .starts_with(r"4369 a at port 01\nname b"));
    assert_eq!(listed(&one(256 - 18)), Err(5));
}

/// The piece in the middle is no line of its own, and goes with either neighbour, but not with both:
/// two readings of two lines each, and no other.
#[test]
fn names_that_join_either_way() {
    let either = |a: usize| {
        format!(
            "name {:a>a$} at port 1\nname  at port 2\nname c at port 3\n",
            ""
        )
    };
    assert_eq!(listed(&either(255 - 16 - 17)), Err(20));
    assert_eq!(listed(&either(256 - 16 - 17)), Err(20));
    assert_eq!(listed(&either(255 - 16)), Err(20));
    // Only the last is near enough.
    assert!(listed(&either(256 - 16))
        .unwrap()
        .ends_with(r"=1  at port 2\nname c=3"));
}

/// Lines too long to join, and two at the end that can be.
#[test]
fn names_of_64_lines() {
    let long = format!("name {:w>250} at port 7\n", "");
    let two = "name a at port 1\nname b at port 2\n";
    assert_eq!(listed(&long.repeat(64)).unwrap().matches('=').count(), 64);
    assert_eq!(listed(&long.repeat(65)), Err(5));
    // 63 or 64 lines; then 64 or 65, of which 65 are too many; then 65 or 66.
    assert_eq!(listed(&(long.repeat(62) + two)), Err(20));
    let told = listed(&(long.repeat(63) + two)).unwrap();
    assert!(told.ends_with(r" a at port 1\nname b=2"));
    assert_eq!(told.matches('=').count(), 64);
    assert_eq!(listed(&(long.repeat(64) + two)), Err(5));
}

/// Equal lines are two lines.
#[test]
fn names_may_repeat() {
    let twice = format!("name {:w>250} at port 7\n", "").repeat(2);
    assert_eq!(listed(&twice).unwrap().matches('=').count(), 2);
}
