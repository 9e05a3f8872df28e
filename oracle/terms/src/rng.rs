//! The generator of jobs draws from this: xorshift64*, another one than the trainer's.

pub struct Rng(u64);

impl Rng {
    /// Seeds that are near each other give streams that are not.
    pub fn new(seed: u64) -> Self {
        let mut rng = Rng((seed ^ 0x2545_F491_4F6C_DD1D).wrapping_mul(0xD6E8_FEB8_6659_FD93) | 1);
        for _ in 0..8 {
            rng.bits();
        }
        rng
    }

    pub fn bits(&mut self) -> u64 {
        self.0 ^= self.0 >> 12;
        self.0 ^= self.0 << 25;
        self.0 ^= self.0 >> 27;
        self.0.wrapping_mul(0x2545_F491_4F6C_DD1D)
    }

    pub fn word(&mut self) -> u32 {
        (self.bits() >> 32) as u32
    }

    /// A number below n, which is above 0.
    pub fn below(&mut self, n: usize) -> usize {
        ((self.bits() >> 32) * n as u64 >> 32) as usize
    }

    /// A number from a to b, both among them.
    pub fn among(&mut self, a: usize, b: usize) -> usize {
        a + self.below(b - a + 1)
    }

    /// True once in n.
    pub fn once_in(&mut self, n: usize) -> bool {
        self.below(n) == 0
    }

    /// From 0 to 1, 1 not among them.
    pub fn unit(&mut self) -> f32 {
        (self.word() >> 8) as f32 / 16_777_216.0
    }

    /// From -limit to limit.
    pub fn signed(&mut self, limit: f32) -> f32 {
        (self.unit() * 2.0 - 1.0) * limit
    }

    pub fn pick<T: Copy>(&mut self, items: &[T]) -> T {
        items[self.below(items.len())]
    }
}
