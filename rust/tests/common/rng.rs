//! A small random number generator, so that a run can be repeated from its seed.

/// SplitMix64.
#[derive(Clone)]
pub struct Rng(pub u64);

impl Rng {
    pub fn next(&mut self) -> u64 {
        self.0 = self.0.wrapping_add(0x9e37_79b9_7f4a_7c15);
        let mut z = self.0;
        z = (z ^ (z >> 30)).wrapping_mul(0xbf58_476d_1ce4_e5b9);
        z = (z ^ (z >> 27)).wrapping_mul(0x94d0_49bb_1331_11eb);
        z ^ (z >> 31)
    }

    /// A number below `bound`, which is small: the slight bias is of no account.
    pub fn below(&mut self, bound: usize) -> usize {
        (self.next() % bound as u64) as usize
    }

    /// True `percent` times in a hundred.
    pub fn chance(&mut self, percent: usize) -> bool {
        self.below(100) < percent
    }

    pub fn pick<'a, T>(&mut self, from: &'a [T]) -> &'a T {
        &from[self.below(from.len())]
    }

    pub fn bytes(&mut self, length: usize) -> Vec<u8> {
        (0..length).map(|_| self.next() as u8).collect()
    }

    /// Often one of the numbers where something might wrap or be taken for "none".
    pub fn border_u32(&mut self) -> u32 {
        match self.below(3) {
            0 => *self.pick(&[
                0,
                1,
                9,
                10,
                0x7fff_ffff,
                0x8000_0000,
                u32::MAX - 1,
                u32::MAX,
            ]),
            1 => self.below(100) as u32,
            _ => self.next() as u32,
        }
    }
}

/// How often the default amount of work is done: `BIRKENSCHUH_ROUNDS`, or once.
pub fn rounds() -> u64 {
    number("BIRKENSCHUH_ROUNDS").unwrap_or(1)
}

/// `BIRKENSCHUH_SEED`, or always the same seed, so that a plain run is the same everywhere.
pub fn seed() -> u64 {
    number("BIRKENSCHUH_SEED").unwrap_or(20_261_116)
}

/// The seed of a run's sequence of this number. The run's own seed is spread first, or neighbouring
/// seeds would run the same sequences in another order.
pub fn sequence_seed(run: u64, number: u64) -> u64 {
    Rng(Rng(run).next() ^ number).next()
}

fn number(variable: &str) -> Option<u64> {
    let text = std::env::var(variable).ok()?;
    Some(
        text.parse()
            .unwrap_or_else(|_| panic!("{variable} is not a number: {text}")),
    )
}
