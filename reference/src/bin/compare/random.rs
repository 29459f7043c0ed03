//! Random numbers (splitmix64), the same ones for the same seed on every machine.

pub struct Random(u64);

impl Random {
    /// Every group has numbers of its own, so that it makes the same cases when it runs alone.
    pub fn new(seed: u64, group: &str) -> Random {
        let mut random = Random(seed);
        for byte in group.bytes() {
            random.0 = random.next() ^ u64::from(byte);
        }
        random
    }

    pub fn next(&mut self) -> u64 {
        self.0 = self.0.wrapping_add(0x9e37_79b9_7f4a_7c15);
        let mut z = self.0;
        z = (z ^ (z >> 30)).wrapping_mul(0xbf58_476d_1ce4_e5b9);
        z = (z ^ (z >> 27)).wrapping_mul(0x94d0_49bb_1331_11eb);
        z ^ (z >> 31)
    }

    /// A number from 0 to below `bound`.
    pub fn below(&mut self, bound: usize) -> usize {
        (self.next() % bound as u64) as usize
    }

    /// A number from `low` to `high`, both included.
    pub fn between(&mut self, low: usize, high: usize) -> usize {
        low + self.below(high - low + 1)
    }

    /// True once in so many times.
    pub fn once_in(&mut self, times: usize) -> bool {
        self.below(times) == 0
    }

    /// An index below `length`; the first and the last come more often.
    pub fn index(&mut self, length: usize) -> usize {
        match self.below(3) {
            0 => 0,
            1 => length - 1,
            _ => self.below(length),
        }
    }

    /// Which of so many faults a case has, as bits: every set of them in turn, with up to three of the first ones left
    /// out again, since those hide all that are checked after them.
    pub fn faults(&mut self, round: usize, kinds: usize) -> usize {
        let mut faults = round % (1 << kinds);
        for _ in 0..self.below(4) {
            faults &= faults.saturating_sub(1);
        }
        faults
    }

    pub fn pick<T: Copy>(&mut self, from: &[T]) -> T {
        from[self.below(from.len())]
    }
}
