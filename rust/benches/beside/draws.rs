/// Xorshift, so that the inputs are the same in every run.
pub struct Draws(u64);

impl Draws {
    pub fn new() -> Draws {
        Draws(12345)
    }

    pub fn bits(&mut self) -> u64 {
        self.0 ^= self.0 << 13;
        self.0 ^= self.0 >> 7;
        self.0 ^= self.0 << 17;
        self.0
    }

    /// From 0 to below n.
    pub fn below(&mut self, n: i64) -> i64 {
        (self.bits() >> 1) as i64 % n
    }

    /// From 0 to below 1.
    pub fn unit(&mut self) -> f64 {
        (self.bits() >> 11) as f64 / 9007199254740992.0
    }
}
