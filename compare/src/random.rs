//! Numbers at random, the same for the same seed on every machine.

#[derive(Clone)]
pub struct Random(u64);

impl Random {
    pub fn new(seed: u64) -> Self {
        Random(seed)
    }

    /// splitmix64.
    #[allow(clippy::should_implement_trait)]
    pub fn next(&mut self) -> u64 {
        self.0 = self.0.wrapping_add(0x9e37_79b9_7f4a_7c15);
        let mut z = self.0;
        z = (z ^ (z >> 30)).wrapping_mul(0xbf58_476d_1ce4_e5b9);
        z = (z ^ (z >> 27)).wrapping_mul(0x94d0_49bb_1331_11eb);
        z ^ (z >> 31)
    }

    /// A number below n, which is not 0.
    pub fn below(&mut self, n: usize) -> usize {
        (self.next() % n as u64) as usize
    }

    pub fn between(&mut self, least: usize, most: usize) -> usize {
        least + self.below(most - least + 1)
    }

    /// True once in n times.
    pub fn once_in(&mut self, n: usize) -> bool {
        self.below(n) == 0
    }

    pub fn pick<'a, T>(&mut self, from: &'a [T]) -> &'a T {
        &from[self.below(from.len())]
    }

    pub fn bytes(&mut self, n: usize) -> Vec<u8> {
        (0..n).map(|_| self.next() as u8).collect()
    }

    /// A number that fields have trouble with: near 0, near a power of two, near the end, or any.
    pub fn odd(&mut self) -> u64 {
        let near = self.below(4) as u64;
        match self.below(6) {
            0 => near,
            1 => (1u64 << self.below(64)).wrapping_add(near).wrapping_sub(1),
            2 => u64::MAX - near,
            3 => 2048u64.wrapping_mul(self.below(40) as u64).wrapping_add(near).wrapping_sub(1),
            4 => self.below(400) as u64,
            _ => self.next(),
        }
    }
}
