//! Pseudorandom numbers, the same for the same seed and case.

pub struct Random {
    state: u64,
}

impl Random {
    pub fn of_case(seed: u64, case: u64) -> Random {
        let mut random = Random { state: seed };
        random.state = random.number() ^ case.wrapping_mul(0xd134_2543_de82_ef95);
        random
    }

    /// 64 bits, by splitmix64.
    pub fn number(&mut self) -> u64 {
        self.state = self.state.wrapping_add(0x9e37_79b9_7f4a_7c15);
        let mut mixed = self.state;
        mixed = (mixed ^ (mixed >> 30)).wrapping_mul(0xbf58_476d_1ce4_e5b9);
        mixed = (mixed ^ (mixed >> 27)).wrapping_mul(0x94d0_49bb_1331_11eb);
        mixed ^ (mixed >> 31)
    }

    /// From 0 to limit - 1.
    pub fn below(&mut self, limit: u64) -> u64 {
        self.number() % limit
    }

    /// From 0 to most, small numbers as often as large ones.
    pub fn up_to(&mut self, most: u64) -> u64 {
        let width = u64::BITS - most.leading_zeros();
        let cut = 1u64 << self.below(u64::from(width) + 1).min(63);
        self.number() % cut.min(most.saturating_add(1))
    }

    pub fn word(&mut self) -> i64 {
        (self.number() >> 32) as i64
    }

    /// True once in so many times.
    pub fn one_in(&mut self, times: u64) -> bool {
        self.below(times) == 0
    }

    pub fn sign(&mut self) -> i64 {
        if self.one_in(2) {
            1
        } else {
            -1
        }
    }

    pub fn shuffle<T>(&mut self, list: &mut [T]) {
        for end in (1..list.len()).rev() {
            list.swap(end, self.below(end as u64 + 1) as usize);
        }
    }

    pub fn pick<T: Copy>(&mut self, from: &[T]) -> T {
        from[self.below(from.len() as u64) as usize]
    }
}
