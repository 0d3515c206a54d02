//! The frames that 01 works by hand, C1 to C10.

use model::{Cookies, Endpoint, Refusal, Registry, ENDPOINT_OUTPUT, REGISTRY_OUTPUT};

const RIDE: &[u8] = b"\x00\x11\x78\x11\x12\x4d\x00\x00\x06\x00\x05\x00\x04\x72\x69\x64\x65\x00\x00";
const GOOD: u64 = 0x4_0300_0104;

fn reply(registry: &mut Registry, connection: u32, frame: &[u8]) -> Result<Vec<u8>, Refusal> {
    let mut out = vec![0; REGISTRY_OUTPUT];
    let written = registry.request(connection, frame, &mut out)?;
    out.truncate(written);
    Ok(out)
}

fn alive2(name: &[u8], extra: &[u8]) -> Vec<u8> {
    let length = (13 + name.len() + extra.len()) as u16;
    let mut frame = length.to_be_bytes().to_vec();
    frame.extend_from_slice(b"\x78\x11\x12\x4d\x00\x00\x06\x00\x05");
    for run in [name, extra] {
        frame.extend_from_slice(&(run.len() as u16).to_be_bytes());
        frame.extend_from_slice(run);
    }
    frame
}

#[test]
fn c1_to_c4_register_and_ask() {
    let mut registry = Registry::new(4369, 4).unwrap();
    assert_eq!(alive2(b"ride", b""), RIDE);
    assert_eq!(
        reply(&mut registry, 1, RIDE).unwrap(),
        [0x76, 0, 0, 0, 0, 4]
    );
    let found = b"\x77\x00\x11\x12\x4d\x00\x00\x06\x00\x05\x00\x04\x72\x69\x64\x65\x00\x00";
    assert_eq!(reply(&mut registry, 2, b"\x00\x05zride").unwrap(), found);
    assert_eq!(
        reply(&mut registry, 2, b"\x00\x05zrode").unwrap(),
        [0x77, 1]
    );
    assert_eq!(
        reply(&mut registry, 3, RIDE).unwrap(),
        [0x76, 1, 0, 0, 0, 0]
    );
}

#[test]
fn c5_and_c6_name_message_and_status() {
    let mut out = [0; ENDPOINT_OUTPUT];
    let mut initiator = Endpoint::new(b"a@b", GOOD, 7).unwrap();
    let written = initiator.start(b"a@bc", &mut out).unwrap().written;
    let name = b"\x00\x12\x4e\x00\x00\x00\x04\x03\x00\x01\x04\x00\x00\x00\x07\x00\x03\x61\x40\x62";
    assert_eq!(out[..written], *name);

    let mut acceptor = Endpoint::new(b"a@bc", GOOD, 7).unwrap();
    let cookies = Cookies {
        own: b"",
        standard: b"monster",
    };
    acceptor.arrive().unwrap();
    acceptor.message(0, name, 0, cookies, &mut out).unwrap();
    assert_eq!(out[..5], *b"\x00\x03\x73\x6f\x6b");
}

/// The order of names shows in simultaneous starts: the greater one goes on.
#[test]
fn c7_and_c8_order_of_names() {
    for (peer, ours, status) in [
        (&b"a@b"[..], &b"a@bc"[..], &b"\x00\x04snok"[..]),
        (b"b@a", b"a@z", b"\x00\x10sok_simultaneous"),
    ] {
        let mut out = [0; ENDPOINT_OUTPUT];
        let mut endpoint = Endpoint::new(ours, GOOD, 1).unwrap();
        endpoint.start(peer, &mut out).unwrap();
        let mut name = [&[0, 15 + peer.len() as u8, b'N'][..], &GOOD.to_be_bytes()].concat();
        name.extend_from_slice(&[0, 0, 0, 1, 0, peer.len() as u8]);
        name.extend_from_slice(peer);
        let slot = endpoint.arrive().unwrap();
        let cookies = Cookies {
            own: b"",
            standard: b"monster",
        };
        endpoint.message(slot, &name, 0, cookies, &mut out).unwrap();
        assert_eq!(out[..status.len()], *status);
    }
}

#[test]
fn c9_challenge_zero_is_one_digit() {
    assert_eq!(model::digest(0, b"x"), model::md5(b"x0"));
}

#[test]
fn c10_borders() {
    let mut registry = Registry::new(4369, 1).unwrap();
    assert_eq!(
        reply(&mut registry, 0, &alive2(&[b'n'; 255], b"")).unwrap()[1],
        0
    );
    assert_eq!(
        reply(&mut registry, 1, &alive2(&[b'm'; 256], b"")),
        Err(Refusal::BadName)
    );
    assert_eq!(
        reply(&mut registry, 1, &alive2(b"x", &[0; 128])).unwrap()[1],
        0
    );
    assert_eq!(
        reply(&mut registry, 2, &alive2(b"y", &[0; 129])),
        Err(Refusal::BadLength)
    );
    for connection in 2..64 {
        let name = connection.to_string();
        assert_eq!(
            reply(&mut registry, connection, &alive2(name.as_bytes(), b"")).unwrap()[1],
            0
        );
    }
    assert_eq!(
        reply(&mut registry, 64, &alive2(b"late", b"")).unwrap(),
        [0x76, 3, 0, 0, 0, 0]
    );
}
