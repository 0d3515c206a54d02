//! Random calls of the mapper, most of them near a border.

use birkenschuh::REGISTRY_OUTPUT;

use crate::calls::Call;
use crate::common::frames::{damage, frame, noise, port_please2, Alive2};
use crate::common::names::name;
use crate::common::rng::Rng;

const EXTRA_LENGTHS: [usize; 7] = [0, 1, 126, 127, 128, 129, 200];
const VERSIONS: [u16; 8] = [0, 4, 5, 6, 7, 255, 256, 65_535];

/// What the calls of one sequence draw from.
pub struct Generator {
    names: Vec<Vec<u8>>,
    connections: Vec<u32>,
    /// In a hundred: how many calls are closes. Few, and the registry fills up.
    closes: usize,
}

impl Generator {
    pub fn new(rng: &mut Rng) -> Generator {
        let many = *rng.pick(&[3, 10, 80, 300]);
        let names = (0..many).map(|_| name(rng)).collect();
        let mut connections: Vec<u32> = (0..many as u32).collect();
        connections.extend([0, 1, u32::MAX, u32::MAX - 1, 1 << 31]);
        Generator {
            names,
            connections,
            closes: *rng.pick(&[1, 5, 20]),
        }
    }

    pub fn first(&self, rng: &mut Rng) -> Call {
        let last = u32::MAX - rng.below(40) as u32;
        Call::New {
            raw: rng.chance(50),
            port: *rng.pick(&[0, 1, 4369, 65_535]),
            first_creation: *rng.pick(&[1, 2, 3, 1 << 31, last, last]),
        }
    }

    pub fn call(&self, rng: &mut Rng, registry: Option<&model::Registry>) -> Call {
        let connection = *rng.pick(&self.connections);
        if rng.chance(self.closes) {
            return Call::Close { connection };
        }
        if let (true, Some(registry)) = (rng.chance(25), registry) {
            return self.aimed(rng, registry);
        }
        if rng.below(500) == 0 {
            return Call::New {
                raw: rng.chance(50),
                port: 1,
                first_creation: 0,
            };
        }
        let room = match rng.below(40) {
            0 => *rng.pick(&[0, 1, 4, 17_603]),
            1 => *rng.pick(&[17_605, 20_000]),
            _ => REGISTRY_OUTPUT,
        };
        let mut frame = self.frame(rng);
        if rng.chance(12) {
            damage(rng, &mut frame);
        }
        Call::Request {
            connection,
            room,
            frame,
        }
    }

    fn frame(&self, rng: &mut Rng) -> Vec<u8> {
        match rng.below(100) {
            0..=39 => self.alive2(rng, false),
            40..=54 => self.alive2(rng, true),
            55..=79 => port_please2(self.name(rng)),
            80..=84 => port_please2(&name(rng)),
            85..=86 => b"\x00\x01n".to_vec(),
            87 => b"\x00\x02n\x00".to_vec(),
            88..=89 => frame(&[*rng.pick(&[100, 107, 115])]),
            90..=94 => tagged(rng),
            95..=96 => bad_counts(rng),
            _ => noise(rng),
        }
    }

    /// A registration by a connection that has one already, of a name that is registered, by its own
    /// connection or another, or neither of these.
    fn aimed(&self, rng: &mut Rng, registry: &model::Registry) -> Call {
        let taken: Vec<_> = (0..64).filter_map(|place| registry.entry(place)).collect();
        let mut connection = *rng.pick(&self.connections);
        let mut asked = name(rng);
        if !taken.is_empty() {
            let (one, other) = (*rng.pick(&taken), *rng.pick(&taken));
            if rng.chance(50) {
                connection = one.connection;
            }
            match rng.below(3) {
                0 => asked = one.name.to_vec(),
                1 => asked = other.name.to_vec(),
                _ => (),
            }
        }
        let request = Alive2 {
            highest: *rng.pick(&[5, 5, 6, 7]),
            ..Alive2::of(&asked)
        };
        Call::Request {
            connection,
            room: REGISTRY_OUTPUT,
            frame: request.frame(),
        }
    }

    fn name(&self, rng: &mut Rng) -> &[u8] {
        &self.names[rng.below(self.names.len())]
    }

    fn alive2(&self, rng: &mut Rng, at_borders: bool) -> Vec<u8> {
        let extra = if rng.chance(30) { rng.below(129) } else { 0 };
        let extra = rng.bytes(extra);
        let other_name = name(rng);
        let other_extra = vec![0x5a; *rng.pick(&EXTRA_LENGTHS)];
        let mut request = Alive2 {
            port: *rng.pick(&[0, 1, 9, 10, 99, 100, 4370, 9999, 10_000, 65_535]),
            kind: rng.next() as u8,
            protocol: rng.next() as u8,
            highest: *rng.pick(&[5, 6, 6, 7, 65_535]),
            lowest: *rng.pick(&[0, 5]),
            name: self.name(rng),
            extra: &extra,
        };
        if at_borders {
            match rng.below(3) {
                0 => {
                    request.highest = *rng.pick(&VERSIONS);
                    request.lowest = *rng.pick(&VERSIONS);
                }
                1 => request.name = &other_name,
                _ => request.extra = &other_extra,
            }
        }
        request.frame()
    }
}

/// Any tag before a little of anything.
fn tagged(rng: &mut Rng) -> Vec<u8> {
    let length = rng.below(20);
    let mut body = vec![rng.next() as u8];
    body.extend(rng.bytes(length));
    frame(&body)
}

/// An ALIVE2 request whose counts say something else than what is there.
fn bad_counts(rng: &mut Rng) -> Vec<u8> {
    let mut request = Alive2::of(b"count").frame();
    let at = *rng.pick(&[11, 18]);
    let count = *rng.pick(&[0u16, 3, 4, 5, 6, 7, 128, 255, 256, 65_535]);
    request[at..at + 2].copy_from_slice(&count.to_be_bytes());
    request
}
