//! Random numbers (splitmix64) that favour the edges.

pub struct Random(pub u64);

impl Random {
    pub fn word(&mut self) -> u64 {
        self.0 = self.0.wrapping_add(0x9E3779B97F4A7C15);
        let mut z = self.0;
        z = (z ^ (z >> 30)).wrapping_mul(0xBF58476D1CE4E5B9);
        z = (z ^ (z >> 27)).wrapping_mul(0x94D049BB133111EB);
        z ^ (z >> 31)
    }

    /// From 0 to end - 1.
    pub fn below(&mut self, end: usize) -> usize {
        (self.word() % end as u64) as usize
    }

    pub fn one_in(&mut self, n: usize) -> bool {
        self.below(n) == 0
    }

    pub fn of<T: Copy>(&mut self, values: &[T]) -> T {
        values[self.below(values.len())]
    }

    /// A number of at most so many bits, of either sign.
    pub fn signed(&mut self, bits: usize) -> i64 {
        if bits == 0 { 0 } else { (self.word() as i64) >> (64 - bits) }
    }

    pub fn extreme(&mut self) -> i64 {
        self.of(&[i64::MIN, i64::MIN + 1, i64::MAX, i64::MAX - 1, 1 << 62, -(1 << 62), (1 << 62) - 1, 1 - (1 << 62), 0, 1, -1])
    }

    /// A working limit: none, an extreme, a small one, any, or one near the least that is enough.
    pub fn limit(&mut self, least: i64) -> i64 {
        match self.below(8) {
            0 => self.extreme(),
            1 => self.below(6) as i64,
            2 => {
                let bits = self.below(65);
                self.signed(bits)
            }
            3..=5 => least.saturating_add(self.of(&[-1, 0, 0, 1, 2])),
            _ => i64::MAX,
        }
    }

    /// A slice of words: small ones, wide ones, extremes, or some of each.
    pub fn slice(&mut self, len: usize) -> Vec<i64> {
        let bits = self.of(&[1, 2, 8, 40, 60, 62, 63, 64]);
        let rare = self.of(&[2, 10, 1000, 1000000]);
        (0..len).map(|_| if self.one_in(rare) { self.extreme() } else { self.signed(bits) }).collect()
    }

    pub fn bytes(&mut self, len: usize) -> Vec<u8> {
        (0..len).map(|_| self.word() as u8).collect()
    }
}
