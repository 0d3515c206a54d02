//! Random calls of nodes at one mapper.

use crate::calls::Call;
use crate::common::names::name;
use crate::common::node::Fields;
use crate::common::rng::Rng;

/// What the calls of one sequence draw from.
pub struct Generator {
    names: Vec<Vec<u8>>,
    /// In a hundred: how many calls are closes. Few, and the registry fills up.
    closes: usize,
}

impl Generator {
    pub fn new(rng: &mut Rng) -> Generator {
        let many = *rng.pick(&[2, 10, 80, 200]);
        let kind: fn(&mut Rng) -> Vec<u8> = *rng.pick(&[name, long, long, lines_inside]);
        Generator {
            names: (0..many).map(|_| kind(rng)).collect(),
            closes: *rng.pick(&[1, 5, 20]),
        }
    }

    pub fn first(&self, rng: &mut Rng) -> Call {
        let last = u32::MAX - rng.below(40) as u32;
        Call::New {
            port: *rng.pick(&[0, 1, 4369, 65_535]),
            first_creation: *rng.pick(&[1, 2, 3, 1 << 31, last]),
        }
    }

    pub fn call(&self, rng: &mut Rng) -> Call {
        let connection = rng.below(2 * self.names.len()) as u32;
        if rng.chance(self.closes) {
            return Call::Close { connection };
        }
        let name = rng.pick(&self.names).clone();
        match rng.below(10) {
            0..=5 => Call::Register {
                connection,
                fields: fields(rng, name),
            },
            6..=7 => Call::Ask { name },
            8 => Call::Ask {
                name: b"x".to_vec(),
            },
            _ => Call::List,
        }
    }
}

/// Names too long to be joined with another.
fn long(rng: &mut Rng) -> Vec<u8> {
    let length = 240 + rng.below(16);
    (0..length).map(|_| b'a' + rng.below(26) as u8).collect()
}

/// Names that hold what lines are made of.
fn lines_inside(rng: &mut Rng) -> Vec<u8> {
    let pieces = [
        "\n",
        " at port 1\n",
        "name ",
        " at port ",
        "65536\n",
        "x",
        "é",
        "0",
    ];
    let length = 1 + rng.below(6);
    let text: String = (0..length).map(|_| *rng.pick(&pieces)).collect();
    match rng.chance(50) {
        true => text.into_bytes(),
        false => format!("{text:w<245}").into_bytes(),
    }
}

/// Fields that a node may register, but for one now and then.
fn fields(rng: &mut Rng, name: Vec<u8>) -> Fields {
    let extra = *rng.pick(&[0, 0, 0, 1, 127, 128, 128, 129]);
    Fields {
        port: *rng.pick(&[0, 1, 9, 10, 99, 100, 4370, 9999, 10_000, 65_535]),
        kind: rng.next() as u8,
        protocol: rng.next() as u8,
        highest: *rng.pick(&[4, 5, 5, 6, 6, 6, 7, 65_535]),
        lowest: *rng.pick(&[0, 4, 5, 5, 5, 6]),
        name,
        extra: rng.bytes(extra),
    }
}
