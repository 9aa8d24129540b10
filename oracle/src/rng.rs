//! Random numbers by splitmix64: the same from the same seed, on every machine.

pub struct Rng(u64);

impl Rng {
    /// Case `index` of a seed: each case can be made alone.
    pub fn new(seed: u64, index: u64) -> Rng {
        let mut r = Rng(seed ^ 0x5851_f42d_4c95_7f2d);
        let mixed = r.u64() ^ index.wrapping_mul(0xd134_2543_de82_ef95);
        let mut r = Rng(mixed);
        r.u64();
        r
    }

    pub fn u64(&mut self) -> u64 {
        self.0 = self.0.wrapping_add(0x9e37_79b9_7f4a_7c15);
        let mut z = self.0;
        z = (z ^ z >> 30).wrapping_mul(0xbf58_476d_1ce4_e5b9);
        z = (z ^ z >> 27).wrapping_mul(0x94d0_49bb_1331_11eb);
        z ^ z >> 31
    }

    pub fn u32(&mut self) -> u64 {
        self.u64() >> 32
    }

    pub fn byte(&mut self) -> u64 {
        self.u64() >> 56
    }

    /// Below n; 0 for n = 0.
    pub fn below(&mut self, n: u64) -> u64 {
        (u128::from(self.u64()) * u128::from(n) >> 64) as u64
    }

    pub fn index(&mut self, n: usize) -> usize {
        self.below(n as u64) as usize
    }

    pub fn from(&mut self, least: u64, most: u64) -> u64 {
        least + self.below(most - least + 1)
    }

    pub fn pick<T: Copy>(&mut self, of: &[T]) -> T {
        of[self.index(of.len())]
    }

    /// In `percent` of 100 cases.
    pub fn chance(&mut self, percent: u64) -> bool {
        self.below(100) < percent
    }
}
