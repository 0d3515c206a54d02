//! 02's Results of ALIVE2 on registries made by hand: which of the three it is, and in which order.

use model::{Registry, REGISTRY_OUTPUT};

/// ALIVE2 of a name with this highest version.
fn alive2(name: &str, highest: u8) -> Vec<u8> {
    let mut frame = vec![0, 13 + name.len() as u8];
    frame.extend_from_slice(&[
        120,
        0x11,
        0x12,
        77,
        0,
        0,
        highest,
        0,
        5,
        0,
        name.len() as u8,
    ]);
    frame.extend_from_slice(name.as_bytes());
    frame.extend_from_slice(&[0, 0]);
    frame
}

fn reply(registry: &mut Registry, connection: u32, frame: &[u8]) -> Vec<u8> {
    let mut out = vec![0; REGISTRY_OUTPUT];
    let written = registry.request(connection, frame, &mut out).unwrap();
    out.truncate(written);
    out
}

/// A registry in which connection n has registered the name n, from 0 on; the next creation is 100.
fn with(places: u32) -> Registry {
    let mut registry = Registry::new(4369, 100 - places).unwrap();
    for number in 0..places {
        let told = reply(&mut registry, number, &alive2(&number.to_string(), 6));
        assert_eq!(told[..2], [118, 0]);
    }
    assert_eq!(registry.next_creation(), 100);
    registry
}

fn bytes(registry: &Registry) -> Vec<u8> {
    let mut bytes = Vec::new();
    registry.put_bytes(&mut bytes);
    bytes
}

/// The two forms of a reply that is not 0, and that nothing changes with it.
fn fails(places: u32, connection: u32, name: &str, result: u8) {
    let mut registry = with(places);
    let before = bytes(&registry);
    for highest in [6, 7, 255] {
        let told = reply(&mut registry, connection, &alive2(name, highest));
        assert_eq!(told, [118, result, 0, 0, 0, 0]);
    }
    let told = reply(&mut registry, connection, &alive2(name, 5));
    assert_eq!(told, [121, result, 0, 0]);
    assert_eq!(bytes(&registry), before);
}

#[test]
fn name_in_use_is_1() {
    for places in [2, 63, 64] {
        fails(places, 99, "1", 1);
    }
}

/// The name is tested before the connection and before the places.
#[test]
fn name_in_use_by_a_connection_with_a_registration_is_1() {
    for places in [2, 63, 64] {
        fails(places, 1, "1", 1);
        fails(places, 0, "1", 1);
    }
}

/// The connection is tested before the places.
#[test]
fn connection_with_a_registration_is_2() {
    for places in [1, 63, 64] {
        fails(places, 0, "new", 2);
        fails(places, places - 1, "new", 2);
    }
}

#[test]
fn no_place_is_3() {
    fails(64, 99, "new", 3);
}

#[test]
fn none_of_the_three_is_0() {
    for places in [0, 1, 63] {
        let told = reply(&mut with(places), 99, &alive2("new", 6));
        assert_eq!(told, [118, 0, 0, 0, 0, 100]);
        let mut registry = with(places);
        assert_eq!(
            reply(&mut registry, 99, &alive2("new", 5)),
            [121, 0, 0, 2] // 1 + (100 mod 3)
        );
        let at = registry.entry(places as usize).unwrap();
        assert_eq!(
            (&*at.name, at.connection, at.creation),
            (&b"new"[..], 99, 100)
        );
        assert_eq!(registry.next_creation(), 101);
    }
}

/// What a close frees is no reason any more: the name, the connection and the place.
#[test]
fn a_close_takes_each_reason_away() {
    for (connection, name) in [(99, "5"), (5, "new"), (99, "new")] {
        let mut registry = with(64);
        assert_ne!(reply(&mut registry, connection, &alive2(name, 6))[1], 0);
        assert!(registry.close(5));
        let told = reply(&mut registry, connection, &alive2(name, 6));
        assert_eq!(told, [118, 0, 0, 0, 0, 100]);
        assert_eq!(registry.entry(5).unwrap().connection, connection);
    }
}
