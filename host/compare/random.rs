//! Numbers from a fixed seed, with a taste for limits.

/// Numbers beside which a width or a rule ends.
pub const LIMITS: [u64; 18] = [
    0,
    1,
    26,
    27,
    32,
    1_000_000_000,
    30_000_000_000,
    600_000_000_000,
    (1 << 16) - 1,
    1 << 16,
    1 << 31,
    (1 << 32) - 1,
    1 << 32,
    1 << 53,
    1 << 62,
    1 << 63,
    3 << 62,
    u64::MAX,
];

/// splitmix64.
#[derive(Clone)]
pub struct Rng(u64);

impl Rng {
    pub fn new(seed: u64) -> Self {
        Self(seed)
    }

    /// Any u64.
    pub fn next(&mut self) -> u64 {
        self.0 = self.0.wrapping_add(0x9e37_79b9_7f4a_7c15);
        let mut z = self.0;
        z = (z ^ (z >> 30)).wrapping_mul(0xbf58_476d_1ce4_e5b9);
        z = (z ^ (z >> 27)).wrapping_mul(0x94d0_49bb_1331_11eb);
        z ^ (z >> 31)
    }

    /// A number below `n`.
    pub fn below(&mut self, n: u64) -> u64 {
        self.next() % n
    }

    /// True `percent` times in a hundred.
    pub fn percent(&mut self, percent: u64) -> bool {
        self.below(100) < percent
    }

    pub fn pick<T: Copy>(&mut self, from: &[T]) -> T {
        from[self.below(from.len() as u64) as usize]
    }

    /// A number of any magnitude, or a limit, or beside one.
    pub fn wide(&mut self) -> u64 {
        match self.below(4) {
            0 => self.next(),
            1 => self.next() >> self.below(64),
            2 => self.pick(&LIMITS),
            _ => self.near(self.clone().pick(&LIMITS)),
        }
    }

    /// `x`, or a little to its left or right.
    pub fn near(&mut self, x: u64) -> u64 {
        match self.below(4) {
            0 => x.wrapping_sub(1),
            1 => x.wrapping_add(1),
            2 => x.wrapping_add(self.below(5)).wrapping_sub(2),
            _ => x,
        }
    }
}
