//! Refusals: nothing is written, the connection is closed, and the log says which and why.

use crate::support::*;

fn refused(request: &[u8], refusal: u32) {
    let mapper = Mapper::start(&[]);
    let (_node, _) = register(mapper.port, "ride", 4370);
    assert_eq!(ask(mapper.port, request), b"", "{request:?}");
    let line = mapper.process.line_with("refused");
    assert!(line.contains(&format!("refusal={refusal} ")), "{line}");
    assert_eq!(names(mapper.port), ["ride"]);
}

#[test]
fn an_empty_frame_is_refused_with_3() {
    refused(b"\x00\x00", 3);
}

#[test]
fn an_unknown_tag_is_refused_with_4() {
    refused(&frame(b"pride"), 4);
}

#[test]
fn a_length_that_disagrees_is_refused_with_5() {
    let mut request = alive2("trail", 1);
    request.push(b'X');
    request[1] += 1;
    refused(&request, 5);
    refused(&frame(b"nX"), 5);
}

#[test]
fn a_bad_name_is_refused_with_6() {
    refused(&alive2("a@b", 1), 6);
    refused(&alive2_of(1, 77, 0, 6, 5, b"\xff\xfe", b""), 6);
    refused(&port_please2(""), 6);
}

#[test]
fn bad_versions_are_refused_with_7() {
    refused(&alive2_of(1, 77, 0, 4, 4, b"old", b""), 7);
    refused(&alive2_of(1, 77, 0, 7, 7, b"new", b""), 7);
}

#[test]
fn dump_kill_and_stop_are_refused_with_8() {
    refused(&frame(b"d"), 8);
    refused(&frame(b"k"), 8);
    refused(&frame(b"sride"), 8);
}

#[test]
fn a_frame_of_65537_bytes_is_read_to_its_end_and_refused() {
    let mut body = vec![b'u'; 65_535];
    body[0] = b'z';
    refused(&frame(&body), 6);
    body[0] = b'n';
    refused(&frame(&body), 5);
    body[0] = b'u';
    refused(&frame(&body), 4);
}

#[test]
fn a_refusal_on_a_nodes_own_connection_ends_the_name() {
    let mapper = Mapper::start(&[]);
    let (mut node, _) = register(mapper.port, "ride", 4370);
    std::io::Write::write_all(&mut node, &frame(b"k")).unwrap();
    let reply = read_for(&mut node, PATIENCE);
    assert_eq!((reply.bytes.len(), reply.closed), (0, true));
    assert!(names(mapper.port).is_empty());
    let line = mapper.process.line_with("left");
    assert!(line.contains("reason=refused"), "{line}");
}
