//! Random numbers from a seed: splitmix64.

pub struct Rng(u64);

impl Rng {
    /// The numbers of one list of a seed.
    pub fn new(seed: u64, list: u64) -> Rng {
        let mut rng = Rng(seed ^ list.wrapping_mul(0xd134_2543_de82_ef95));
        Rng(rng.next())
    }

    pub fn next(&mut self) -> u64 {
        self.0 = self.0.wrapping_add(0x9e37_79b9_7f4a_7c15);
        let mut z = self.0;
        z = (z ^ (z >> 30)).wrapping_mul(0xbf58_476d_1ce4_e5b9);
        z = (z ^ (z >> 27)).wrapping_mul(0x94d0_49bb_1331_11eb);
        z ^ (z >> 31)
    }

    /// 0 to `end` − 1.
    pub fn below(&mut self, end: usize) -> usize {
        (self.next() % end as u64) as usize
    }

    /// `low` to `high`, both included.
    pub fn within(&mut self, low: i64, high: i64) -> i64 {
        low + (self.next() % (high - low + 1) as u64) as i64
    }

    /// True `percent` times out of a hundred.
    pub fn chance(&mut self, percent: usize) -> bool {
        self.below(100) < percent
    }

    pub fn pick<T: Copy>(&mut self, from: &[T]) -> T {
        from[self.below(from.len())]
    }

    pub fn shuffle<T>(&mut self, list: &mut [T]) {
        for last in (1..list.len()).rev() {
            list.swap(last, self.below(last + 1));
        }
    }

    /// A number that isn't sensible: near a limit of some width, or of a size.
    pub fn nonsense(&mut self, vertices: u64) -> u64 {
        let base = self.pick(&[
            vertices,
            0,
            255,
            256,
            65_535,
            65_536,
            (1 << 32) - 1,
            1 << 32,
            (1 << 63) - 1,
            1 << 63,
            u64::MAX,
        ]);
        match self.below(4) {
            0 => base,
            1 => base.wrapping_sub(self.below(4) as u64),
            2 => base.wrapping_add(self.below(12) as u64),
            _ => self.next() >> self.below(64),
        }
    }
}
