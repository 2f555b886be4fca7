//! A small seeded generator (splitmix64): the same seed gives the same numbers on every machine.

/// A stream of numbers fixed by its seed.
#[derive(Clone, Debug)]
pub struct Random {
    state: u64,
}

impl Random {
    /// The stream of one file: seed and file number alone decide it, so a file is the same whatever the count.
    pub fn of_file(seed: u64, number: u64) -> Self {
        let mut of_seed = Random { state: seed };
        Random {
            state: of_seed.bits() ^ number.wrapping_mul(0xD1B5_4A32_D192_ED03),
        }
    }

    /// The next 64 bits.
    pub fn bits(&mut self) -> u64 {
        self.state = self.state.wrapping_add(0x9E37_79B9_7F4A_7C15);
        let mut mixed = self.state;
        mixed = (mixed ^ mixed >> 30).wrapping_mul(0xBF58_476D_1CE4_E5B9);
        mixed = (mixed ^ mixed >> 27).wrapping_mul(0x94D0_49BB_1331_11EB);
        mixed ^ mixed >> 31
    }

    /// A number from low to high, both included.
    pub fn between(&mut self, low: i64, high: i64) -> i64 {
        let span = (i128::from(high) - i128::from(low) + 1) as u128;
        (i128::from(low) + (u128::from(self.bits()) % span) as i128) as i64
    }

    /// A number below the limit, which is positive.
    pub fn below(&mut self, limit: usize) -> usize {
        (self.bits() % limit as u64) as usize
    }

    /// True once in so many times.
    pub fn once_in(&mut self, times: u64) -> bool {
        self.bits().is_multiple_of(times)
    }

    /// One of the items, of which there is at least one.
    pub fn pick<'a, T>(&mut self, items: &'a [T]) -> &'a T {
        &items[self.below(items.len())]
    }

    /// Puts the items into another order.
    pub fn shuffle<T>(&mut self, items: &mut [T]) {
        for left in (2..=items.len()).rev() {
            items.swap(left - 1, self.below(left));
        }
    }

    /// A number from 0 to high of any size: small ones are as common as large ones.
    pub fn any_size(&mut self, high: u64) -> u64 {
        let bits = 64 - high.leading_zeros() as usize;
        let masked = match self.below(bits + 1) {
            0 => 0,
            kept => self.bits() >> (64 - kept),
        };
        masked.min(high)
    }
}
