//! Document 01's instants and durations, as the crate's module `time`.

use core::fmt::Debug;
use core::ops::Div;

const SECOND: u64 = 1_000_000_000;

/// A duration: nanoseconds. Arguments are below 2^62; a product stops at 2^64 - 1.
#[derive(Clone, Copy, Debug, Default, PartialEq, Eq, PartialOrd, Ord)]
pub struct Duration(pub u64);

impl Duration {
    pub const ZERO: Self = Self(0);

    pub const fn from_secs(secs: u64) -> Self {
        Self(secs * SECOND)
    }

    pub const fn from_millis(millis: u64) -> Self {
        Self(millis * 1_000_000)
    }

    pub const fn is_zero(&self) -> bool {
        self.0 == 0
    }

    pub const fn saturating_mul(self, by: u32) -> Self {
        Self(self.0.saturating_mul(by as u64))
    }

    /// Whole seconds as a float plus the nanoseconds left over as a float divided by 10^9.
    pub fn as_secs_f64(&self) -> f64 {
        (self.0 / SECOND) as f64 + (self.0 % SECOND) as f64 / 1e9
    }
}

impl Div<u32> for Duration {
    type Output = Self;

    fn div(self, by: u32) -> Self {
        Self(self.0 / u64::from(by))
    }
}

/// What the Rust asks of an instant.
pub trait Instant: Copy + Ord + Debug {
    /// Elapsed time, 0 where the clock went back.
    fn saturating_duration_since(self, earlier: Self) -> Duration;
    /// The sum, unless it passes the last instant.
    fn checked_add(self, d: Duration) -> Option<Self>;
}

/// An instant: nanoseconds.
impl Instant for u64 {
    fn saturating_duration_since(self, earlier: Self) -> Duration {
        Duration(self.saturating_sub(earlier))
    }

    fn checked_add(self, d: Duration) -> Option<Self> {
        u64::checked_add(self, d.0)
    }
}

/// `t + d`; while that passes 2^64 - 1, `d` is halved, rounding down.
pub fn deadline<I: Instant>(t: I, d: Duration) -> I {
    let mut d = d;
    loop {
        match t.checked_add(d) {
            Some(sum) => return sum,
            None => d = d / 2,
        }
    }
}
