//! Seeded random numbers (splitmix64), so that a seed printed by a failure makes the same input again.

pub struct Random {
    state: u64,
}

impl Random {
    pub fn new(seed: u64) -> Random {
        Random { state: seed.wrapping_mul(0x9E37_79B9_7F4A_7C15) ^ 0xD1B5_4A32_D192_ED03 }
    }

    pub fn next(&mut self) -> u64 {
        self.state = self.state.wrapping_add(0x9E37_79B9_7F4A_7C15);
        let mut z = self.state;
        z = (z ^ (z >> 30)).wrapping_mul(0xBF58_476D_1CE4_E5B9);
        z = (z ^ (z >> 27)).wrapping_mul(0x94D0_49BB_1331_11EB);
        z ^ (z >> 31)
    }

    /// From 0 to below n; 0 where n is 0.
    pub fn below(&mut self, n: usize) -> usize {
        if n == 0 {
            return 0;
        }
        (self.next() % n as u64) as usize
    }

    pub fn from_to(&mut self, from: u32, to: u32) -> u32 {
        from + (self.next() % (u64::from(to - from) + 1)) as u32
    }

    pub fn one_in(&mut self, n: usize) -> bool {
        self.below(n) == 0
    }

    pub fn pick<'a, T>(&mut self, items: &'a [T]) -> &'a T {
        &items[self.below(items.len())]
    }

    /// A cell as damage likes it: ends of ranges, limits and their neighbours, or anything.
    pub fn cell(&mut self) -> u32 {
        let near = *self.pick(&[0, 1, 2, 20, 32, 255, 256, 8192, 65_535, 65_536, 16_777_214, 16_777_215, 16_777_216, u32::MAX]);
        match self.below(4) {
            0 => self.next() as u32,
            1 => self.below(64) as u32,
            2 => near.wrapping_add(self.below(3) as u32).wrapping_sub(1),
            _ => near,
        }
    }
}
