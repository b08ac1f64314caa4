//! Numbers that look random and are the same in every run.

/// A linear congruential generator.
pub struct Draws {
    state: u64,
}

impl Draws {
    pub fn new() -> Draws {
        Draws { state: 1 }
    }

    /// A number below a bound, which draws reach up to 2^30.
    pub fn below(&mut self, bound: usize) -> usize {
        let high = self.step();
        let low = self.step();
        (high * 32_768 + low) % bound
    }

    fn step(&mut self) -> usize {
        self.state = self.state.wrapping_mul(1_103_515_245).wrapping_add(12_345) % 2_147_483_648;
        (self.state / 65_536) as usize
    }
}
