//! Random numbers by splitmix64.

pub struct Random {
    state: u64,
}

const STEP: u64 = 0x9E37_79B9_7F4A_7C15;

/// The output function of splitmix64.
pub fn mixed(state: u64) -> u64 {
    let once = (state ^ (state >> 30)).wrapping_mul(0xBF58_476D_1CE4_E5B9);
    let twice = (once ^ (once >> 27)).wrapping_mul(0x94D0_49BB_1331_11EB);
    twice ^ (twice >> 31)
}

impl Random {
    /// A stream that depends on the seed and the case's number alone.
    pub fn for_case(seed: u64, number: u64) -> Random {
        Random { state: mixed(seed.wrapping_add(STEP)) ^ mixed(number.wrapping_mul(STEP)) }
    }

    /// A stream that depends on these numbers alone.
    pub fn for_numbers(numbers: &[u64]) -> Random {
        Random { state: numbers.iter().fold(STEP, |state, &number| mixed(state.wrapping_add(STEP) ^ number)) }
    }

    pub fn next(&mut self) -> u64 {
        self.state = self.state.wrapping_add(STEP);
        mixed(self.state)
    }

    pub fn below(&mut self, bound: u64) -> u64 {
        ((u128::from(self.next()) * u128::from(bound)) >> 64) as u64
    }

    pub fn index(&mut self, length: usize) -> usize {
        self.below(length as u64) as usize
    }

    /// A number from `least` to `greatest`, both included.
    pub fn between(&mut self, least: i64, greatest: i64) -> i64 {
        least + self.below((greatest - least) as u64 + 1) as i64
    }

    pub fn one_in(&mut self, times: u64) -> bool {
        self.below(times) == 0
    }

    pub fn pick<T: Copy>(&mut self, choices: &[T]) -> T {
        choices[self.index(choices.len())]
    }
}
