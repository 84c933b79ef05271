//! Random numbers that are the same in every run (splitmix64).

/// The seed, unless DIFFERENTIAL_SEED names another.
const SEED: u64 = 0x6375_7765_6c66_7261;

/// The seed of this run.
pub fn seed() -> u64 {
    match std::env::var("DIFFERENTIAL_SEED") {
        Ok(text) => text
            .parse()
            .expect("DIFFERENTIAL_SEED is a decimal number of 64 bits"),
        Err(_) => SEED,
    }
}

pub struct Rng(u64);

impl Rng {
    /// A generator of its own for each suite, so that a suite alone runs as among all.
    pub fn for_suite(seed: u64, name: &str) -> Self {
        let mut rng = Self(seed);
        for byte in name.bytes() {
            rng.0 ^= u64::from(byte);
            rng.0 = rng.next();
        }
        rng
    }

    pub fn next(&mut self) -> u64 {
        self.0 = self.0.wrapping_add(0x9e37_79b9_7f4a_7c15);
        let mut x = self.0;
        x = (x ^ (x >> 30)).wrapping_mul(0xbf58_476d_1ce4_e5b9);
        x = (x ^ (x >> 27)).wrapping_mul(0x94d0_49bb_1331_11eb);
        x ^ (x >> 31)
    }

    pub fn byte(&mut self) -> u8 {
        self.next() as u8
    }

    /// A number below `n`, which is not 0.
    pub fn below(&mut self, n: usize) -> usize {
        (self.next() % n as u64) as usize
    }

    pub fn pick<T: Copy>(&mut self, from: &[T]) -> T {
        from[self.below(from.len())]
    }

    /// Brings items into any order.
    pub fn shuffle<T>(&mut self, items: &mut [T]) {
        for i in 1..items.len() {
            items.swap(i, self.below(i + 1));
        }
    }

    /// True once in `n` times.
    pub fn once_in(&mut self, n: usize) -> bool {
        self.below(n) == 0
    }

    /// A number at most 3 away from `n`, wrapping around.
    pub fn near(&mut self, n: u64) -> u64 {
        n.wrapping_add(self.next() % 7).wrapping_sub(3)
    }

    /// A number around 0 and 2^64, around 2^32, around another power of two, or any.
    pub fn edge(&mut self) -> u64 {
        match self.below(8) {
            0..=2 => self.near(0),
            3 | 4 => self.near(1 << 32),
            5 => {
                let power = 1 << self.below(64);
                self.near(power)
            }
            6 => self.next() % 100,
            _ => self.next(),
        }
    }

    /// The same for 32 bits.
    pub fn edge32(&mut self) -> u32 {
        match self.below(4) {
            0 | 1 => self.near(0) as u32,
            2 => self.near(1 << 31) as u32,
            _ => self.next() as u32,
        }
    }

    /// Random bytes, of which some calls give many continuation bits or many zeros.
    pub fn fill(&mut self, bytes: &mut [u8]) {
        let (and, or) = self.pick(&[(0xff, 0), (0xff, 0x80), (0x7f, 0), (0x83, 0), (0x03, 0)]);
        for byte in bytes {
            *byte = self.byte();
            if !self.once_in(8) {
                *byte = *byte & and | or;
            }
        }
    }

    pub fn bytes(&mut self, len: usize) -> Vec<u8> {
        let mut bytes = vec![0; len];
        self.fill(&mut bytes);
        bytes
    }
}
