// Random numbers from a seed.

/// Splitmix64.
pub struct Random(pub u64);

impl Random {
    pub fn next(&mut self) -> u64 {
        self.0 = self.0.wrapping_add(0x9E37_79B9_7F4A_7C15);
        let mut z = self.0;
        z = (z ^ (z >> 30)).wrapping_mul(0xBF58_476D_1CE4_E5B9);
        z = (z ^ (z >> 27)).wrapping_mul(0x94D0_49BB_1331_11EB);
        z ^ (z >> 31)
    }

    pub fn below(&mut self, bound: u64) -> u64 { self.next() % bound }

    pub fn between(&mut self, low: u64, high: u64) -> u64 { low + self.below(high - low + 1) }

    pub fn place(&mut self, length: usize) -> usize { self.below(length as u64) as usize }

    pub fn percent(&mut self, share: u64) -> bool { self.below(100) < share }

    pub fn pick<T: Clone>(&mut self, from: &[T]) -> T { from[self.place(from.len())].clone() }

    pub fn shuffle<T>(&mut self, list: &mut [T]) {
        for last in (1..list.len()).rev() {
            list.swap(last, self.place(last + 1));
        }
    }
}
