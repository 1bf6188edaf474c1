//! A small random number generator (splitmix64).

/// Random numbers of a seed and an index.
#[derive(Clone, Debug)]
pub struct Random(u64);

impl Random {
    pub fn new(seed: u64, index: u64) -> Random {
        let mut start = Random(seed ^ 0x6b62_5f65_6e67_696e);
        let mixed = start.bits() ^ index.wrapping_mul(0xd6e8_feb8_6659_fd93);
        Random(mixed)
    }

    /// The next 64 bits.
    pub fn bits(&mut self) -> u64 {
        self.0 = self.0.wrapping_add(0x9e37_79b9_7f4a_7c15);
        let mut z = self.0;
        z = (z ^ (z >> 30)).wrapping_mul(0xbf58_476d_1ce4_e5b9);
        z = (z ^ (z >> 27)).wrapping_mul(0x94d0_49bb_1331_11eb);
        z ^ (z >> 31)
    }

    /// A number below n, 0 if n is 0.
    pub fn below(&mut self, n: usize) -> usize {
        if n == 0 {
            return 0;
        }
        (((self.bits() >> 32) * n as u64) >> 32) as usize
    }

    /// A number from low to high, both included.
    pub fn between(&mut self, low: usize, high: usize) -> usize {
        low + self.below(high - low + 1)
    }

    /// True once in n times.
    pub fn once_in(&mut self, n: usize) -> bool {
        self.below(n) == 0
    }

    /// One of the list.
    pub fn pick<'l, T>(&mut self, list: &'l [T]) -> &'l T {
        &list[self.below(list.len())]
    }

    pub fn byte(&mut self) -> u8 {
        self.bits() as u8
    }

    /// A permutation of 0 .. n-1.
    pub fn permutation(&mut self, n: usize) -> Vec<usize> {
        let mut list: Vec<usize> = (0..n).collect();
        for i in (1..n).rev() {
            list.swap(i, self.below(i + 1));
        }
        list
    }

    /// A budget: mostly small, with every small one likely.
    pub fn budget(&mut self) -> u32 {
        let top = *self.pick(&[12, 40, 40, 100, 100, 300, 300, 900]);
        self.below(top) as u32
    }
}
