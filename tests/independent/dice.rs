//! A fixed generator (splitmix64): the same seed and index always give the same numbers.

pub struct Dice(u64);

fn scramble(mut z: u64) -> u64 {
    z = (z ^ (z >> 30)).wrapping_mul(0xBF58_476D_1CE4_E5B9);
    z = (z ^ (z >> 27)).wrapping_mul(0x94D0_49BB_1331_11EB);
    z ^ (z >> 31)
}

impl Dice {
    /// The index is scrambled with the seed, so that neighbours share nothing.
    pub fn new(seed: u64, index: u64) -> Dice {
        let start = scramble(seed.wrapping_add(0x9E37_79B9_7F4A_7C15));
        Dice(scramble(start ^ index))
    }

    pub fn next(&mut self) -> u64 {
        self.0 = self.0.wrapping_add(0x9E37_79B9_7F4A_7C15);
        scramble(self.0)
    }

    /// 0 to n-1.
    pub fn below(&mut self, n: i64) -> i64 {
        (self.next() % n as u64) as i64
    }

    /// a to b, both included.
    pub fn between(&mut self, a: i64, b: i64) -> i64 {
        a + self.below(b - a + 1)
    }

    /// True once in n times.
    pub fn once_in(&mut self, n: i64) -> bool {
        self.below(n) == 0
    }

    pub fn pick<T: Clone>(&mut self, from: &[T]) -> T {
        from[self.below(from.len() as i64) as usize].clone()
    }

    pub fn index(&mut self, length: usize) -> usize {
        self.below(length as i64) as usize
    }

    pub fn bytes(&mut self, length: usize) -> Vec<u8> {
        (0..length).map(|_| self.next() as u8).collect()
    }
}
