//! A small random source: splitmix64. The same seed gives the same numbers
//! on every machine, so that a difference found once is found again.

pub struct Random {
    state: u64,
}

impl Random {
    pub fn of(seed: u64) -> Self {
        Random { state: seed }
    }

    pub fn bits64(&mut self) -> u64 {
        self.state = self.state.wrapping_add(0x9e37_79b9_7f4a_7c15);
        let mut mixed = self.state;
        mixed = (mixed ^ (mixed >> 30)).wrapping_mul(0xbf58_476d_1ce4_e5b9);
        mixed = (mixed ^ (mixed >> 27)).wrapping_mul(0x94d0_49bb_1331_11eb);
        mixed ^ (mixed >> 31)
    }

    /// A number under `end`, which is not 0. The remainder's tiny bias towards
    /// small numbers does no harm here.
    pub fn below(&mut self, end: usize) -> usize {
        (self.bits64() % end as u64) as usize
    }

    /// A number from `first` to `last`, both included.
    pub fn between(&mut self, first: usize, last: usize) -> usize {
        first + self.below(last - first + 1)
    }

    /// True once in `many` times.
    pub fn once_in(&mut self, many: usize) -> bool {
        self.below(many) == 0
    }

    pub fn coin(&mut self) -> bool {
        self.once_in(2)
    }

    pub fn byte(&mut self) -> u8 {
        self.bits64() as u8
    }

    pub fn bits32(&mut self) -> u32 {
        self.bits64() as u32
    }

    pub fn pick<T: Copy>(&mut self, values: &[T]) -> T {
        values[self.below(values.len())]
    }

    /// The index of one of the weights, each as likely as it is heavy.
    pub fn weighted(&mut self, weights: &[usize]) -> usize {
        let mut place = self.below(weights.iter().sum());
        for (index, &weight) in weights.iter().enumerate() {
            if place < weight {
                return index;
            }
            place -= weight;
        }
        unreachable!("the place is below the sum of the weights")
    }

    /// Random bytes.
    pub fn bytes(&mut self, length: usize) -> Vec<u8> {
        let mut bytes = Vec::with_capacity(length + 8);
        while bytes.len() < length {
            bytes.extend_from_slice(&self.bits64().to_le_bytes());
        }
        bytes.truncate(length);
        bytes
    }
}
