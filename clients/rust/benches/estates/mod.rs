//! Estates and calls from a seed.

pub struct Seed(u64);

impl Seed {
    pub fn new(seed: u64) -> Seed {
        Seed(seed)
    }

    pub fn word(&mut self) -> u64 {
        self.0 = self.0.wrapping_add(0x9e37_79b9_7f4a_7c15);
        let mut z = self.0;
        z = (z ^ (z >> 30)).wrapping_mul(0xbf58_476d_1ce4_e5b9);
        z = (z ^ (z >> 27)).wrapping_mul(0x94d0_49bb_1331_11eb);
        z ^ (z >> 31)
    }

    pub fn below(&mut self, bound: u64) -> u64 {
        self.word() % bound
    }
}

/// What claims are like.
#[derive(Clone, Copy, PartialEq)]
pub enum Kind {
    /// Anything up to the most.
    Uniform,
    /// Close to each other, many of them equal.
    Near,
    /// Of all sizes, from a cent to the most.
    Geometric,
    /// A few cents.
    Small,
}

pub const KINDS: [Kind; 4] = [Kind::Uniform, Kind::Near, Kind::Geometric, Kind::Small];

impl Kind {
    pub fn claim(self, seed: &mut Seed) -> u64 {
        match self {
            Kind::Uniform => seed.below(1_000_000_001),
            Kind::Near => 250_000_000 + seed.below(1_000),
            Kind::Geometric => {
                let bits = seed.below(29) + 1;
                ((1 << bits) + seed.below(1 << bits)).min(1_000_000_000)
            }
            Kind::Small => seed.below(8),
        }
    }
}

pub fn claim(cents: u64) -> Vec<u8> {
    with(0, &[cents])
}

pub fn prove(place: u64, cents: u64) -> Vec<u8> {
    with(1, &[place, cents])
}

pub fn come(cents: u64) -> Vec<u8> {
    with(2, &[cents])
}

pub const SHARES: &[u8] = &[3];
pub const CENTS: &[u8] = &[4];

/// So many cents come in as many calls as that takes.
pub fn all_come(mut cents: u64) -> Vec<Vec<u8>> {
    let mut calls = Vec::new();
    while cents > 0 {
        let some = cents.min(1_000_000_000);
        calls.push(come(some));
        cents -= some;
    }
    calls
}

fn with(kind: u8, numbers: &[u64]) -> Vec<u8> {
    let mut bytes = vec![kind];
    bytes.extend(numbers.iter().flat_map(|number| number.to_le_bytes()));
    bytes
}
