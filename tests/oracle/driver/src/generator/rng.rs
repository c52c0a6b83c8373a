//! splitmix64.

pub struct Rng {
    state: u64,
}

impl Rng {
    /// Each layer gets its own numbers from a seed.
    pub fn new(seed: u64, layer: &str) -> Self {
        let mut rng = Self { state: seed };
        for byte in layer.bytes() {
            rng.state ^= byte as u64;
            rng.state = rng.next();
        }
        rng
    }

    pub fn next(&mut self) -> u64 {
        self.state = self.state.wrapping_add(0x9e37_79b9_7f4a_7c15);
        let mut z = self.state;
        z = (z ^ (z >> 30)).wrapping_mul(0xbf58_476d_1ce4_e5b9);
        z = (z ^ (z >> 27)).wrapping_mul(0x94d0_49bb_1331_11eb);
        z ^ (z >> 31)
    }

    /// 0 to `bound` − 1.
    pub fn below(&mut self, bound: u64) -> u64 {
        self.next() % bound
    }

    /// `low` to `high`, both counted.
    pub fn between(&mut self, low: u64, high: u64) -> u64 {
        low + self.below(high - low + 1)
    }

    pub fn chance(&mut self, percent: u64) -> bool {
        self.below(100) < percent
    }

    pub fn pick<T: Copy>(&mut self, from: &[T]) -> T {
        from[self.below(from.len() as u64) as usize]
    }

    /// A number of 0 to `most` bits, each length as likely as another.
    pub fn of_bits(&mut self, most: u64) -> u64 {
        let bits = self.between(0, most);
        self.next().checked_shr(64 - bits as u32).unwrap_or(0)
    }

    /// `value` moved by at most `by`, around the circle of u64.
    pub fn near(&mut self, value: u64, by: u64) -> u64 {
        value.wrapping_sub(by).wrapping_add(self.between(0, 2 * by))
    }
}
