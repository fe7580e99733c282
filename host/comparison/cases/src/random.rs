//! A small xorshift, so that a seed always gives the same cases.

/// The state of the xorshift; never 0.
pub struct Random {
    state: u64,
}

impl Random {
    pub fn seeded(seed: u64) -> Random {
        let mut random = Random { state: seed.wrapping_mul(2_685_821_657_736_338_717) ^ 88_172_645_463_325_252 };
        if random.state == 0 {
            random.state = 1;
        }
        for _ in 0..8 {
            random.next();
        }
        random
    }

    /// The stream of a number under a seed.
    pub fn of(seed: u64, number: u64) -> Random {
        Random::seeded(seed.wrapping_mul(6_364_136_223_846_793_005).wrapping_add(number))
    }

    fn next(&mut self) -> u64 {
        self.state ^= self.state << 13;
        self.state ^= self.state >> 7;
        self.state ^= self.state << 17;
        self.state
    }

    /// A number from 0 up to, not with, the bound; 0 where the bound is 0.
    pub fn below(&mut self, bound: usize) -> usize {
        if bound == 0 {
            return 0;
        }
        ((self.next() >> 16) % bound as u64) as usize
    }

    /// A number between the two, both with.
    pub fn between(&mut self, least: usize, greatest: usize) -> usize {
        least + self.below(greatest - least + 1)
    }

    /// True once in so many times.
    pub fn one_in(&mut self, times: usize) -> bool {
        self.below(times) == 0
    }

    /// One of the entries.
    pub fn pick<'a, T>(&mut self, entries: &'a [T]) -> &'a T {
        &entries[self.below(entries.len())]
    }

    /// The entries in another order.
    pub fn shuffle<T>(&mut self, entries: &mut [T]) {
        for last in (1..entries.len()).rev() {
            entries.swap(last, self.below(last + 1));
        }
    }
}
