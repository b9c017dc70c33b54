// Numbers at random, the same for the same seed.

pub struct Random(u64);

impl Random {
    /// A sequence of its own for each seed and group.
    pub fn new(seed: u64, group: &str) -> Random {
        let mut random = Random(seed);
        for byte in group.bytes() {
            random.0 = random.next() ^ u64::from(byte);
        }
        random
    }

    /// The generator splitmix64.
    pub fn next(&mut self) -> u64 {
        self.0 = self.0.wrapping_add(0x9e37_79b9_7f4a_7c15);
        let mut x = self.0;
        x = (x ^ (x >> 30)).wrapping_mul(0xbf58_476d_1ce4_e5b9);
        x = (x ^ (x >> 27)).wrapping_mul(0x94d0_49bb_1331_11eb);
        x ^ (x >> 31)
    }

    pub fn below(&mut self, bound: usize) -> usize {
        (self.next() % bound as u64) as usize
    }

    /// From least to greatest, both included.
    pub fn between(&mut self, least: i64, greatest: i64) -> i64 {
        least + (self.next() % (greatest - least + 1) as u64) as i64
    }

    pub fn one_in(&mut self, count: usize) -> bool {
        self.below(count) == 0
    }

    pub fn pick<T: Copy>(&mut self, from: &[T]) -> T {
        from[self.below(from.len())]
    }

    pub fn byte(&mut self) -> u8 {
        self.next() as u8
    }

    /// Any byte but this one.
    pub fn other_byte(&mut self, than: u8) -> u8 {
        than.wrapping_add(1 + self.below(255) as u8)
    }

    pub fn nonzero(&mut self) -> u8 {
        self.other_byte(0)
    }

    pub fn bytes(&mut self, length: usize) -> Vec<u8> {
        (0..length).map(|_| self.byte()).collect()
    }

    /// `total` as a sum of `parts` numbers of at least 1.
    pub fn split(&mut self, total: usize, parts: usize) -> Vec<usize> {
        let mut sizes = vec![1; parts];
        // Most go to one part, so that deep trees are as usual as broad ones.
        let favourite = self.below(parts);
        let share = self.below(total - parts + 1);
        sizes[favourite] += share;
        for _ in 0..total - parts - share {
            let part = self.below(parts);
            sizes[part] += 1;
        }
        sizes
    }
}
