//! Our single functions beside the Rust's: every pair of limits, then numbers at random.

use crate::clib::{
    Reply, hess_after, hess_clamp, hess_deadline, hess_elapsed, hess_fold, hess_max,
    hess_quality_index, hess_seconds, hess_size, hess_timeout, hess_total, hess_total_bits,
};
use crate::random::{LIMITS, Rng};
use oracle::proto::mmp::quality_index;
use oracle::proto::path::script::{
    after_of, deadline_of, fold_of, seconds_of, size_of, timeout_of,
};
use oracle::time::Instant;
use std::fmt::Debug;

/// Random calls of each function.
const CALLS: usize = 200_000;
const SEED: u64 = 100;

/// A NaN's bits where only that it is one is seen.
const NAN: u64 = 0x7ff8_0000_0000_0000;

/// Floats beside which a rule or a format ends.
const FLOATS: [f64; 22] = [
    0.0,
    -0.0,
    1.0,
    -1.0,
    100.0,
    0.01,
    0.010000000000000002,
    0.009999999999999998,
    1.0000000000000002,
    0.9999999999999999,
    100.00000000000001,
    99.99999999999999,
    0.5,
    31.5,
    f64::MIN_POSITIVE,
    f64::from_bits(1),
    f64::from_bits(1 | 1 << 63),
    f64::MAX,
    f64::MIN,
    f64::INFINITY,
    f64::NEG_INFINITY,
    f64::EPSILON,
];

/// NaNs: quiet and signalling, of both signs, with small and large payloads.
const NANS: [u64; 8] = [
    NAN,
    NAN | 1 << 63,
    NAN | 1,
    0x7ff0_0000_0000_0001,
    0xfff0_0000_0000_0001,
    0x7fff_ffff_ffff_ffff,
    0xffff_ffff_ffff_ffff,
    0xfff7_ffff_ffff_ffff,
];

/// What was compared.
pub struct Single {
    pub counts: Vec<(&'static str, u64)>,
    rng: Rng,
}

impl Single {
    /// Compare all of them. A difference ends the program.
    pub fn run() -> Self {
        let mut all = Self {
            counts: Vec::new(),
            rng: Rng::new(SEED),
        };
        all.identifiers();
        all.times();
        all.etx();
        all.floats();
        all.orders();
        all.sizes();
        all.timeouts();
        all
    }

    pub fn calls(&self) -> u64 {
        self.counts.iter().map(|(_, n)| n).sum()
    }

    /// Count a call, and stop at a difference.
    fn same<A: Debug, T: PartialEq + Debug>(
        &mut self,
        name: &'static str,
        args: A,
        ours: T,
        rust: T,
    ) {
        if ours != rust {
            println!("{name}{args:?}: ours {ours:?}, the Rust's {rust:?}");
            std::process::exit(1);
        }
        match self.counts.iter_mut().find(|(n, _)| *n == name) {
            Some((_, count)) => *count += 1,
            None => self.counts.push((name, 1)),
        }
    }

    /// Pairs of numbers: the limits with one step to each side, then any.
    fn pairs(&mut self) -> Vec<(u64, u64)> {
        let beside = |x: u64| [x.wrapping_sub(1), x, x.wrapping_add(1)];
        let edges: Vec<u64> = LIMITS.into_iter().flat_map(beside).collect();
        let mut all: Vec<_> = edges
            .iter()
            .flat_map(|&a| edges.iter().map(move |&b| (a, b)))
            .collect();
        for _ in 0..CALLS {
            let a = self.rng.wide();
            let b = match self.rng.below(4) {
                0 => self.rng.near(a),
                1 => self.rng.near(a ^ (1 << 31)),
                _ => self.rng.wide(),
            };
            all.push((a, b));
        }
        all
    }

    fn identifiers(&mut self) {
        for (a, b) in self.pairs() {
            let (a, b) = (a as u32, b as u32);
            self.same("after", (a, b), hess_after(a, b), after_of(a, b).into());
        }
    }

    fn times(&mut self) {
        for (t, d) in self.pairs() {
            let (number, value) = deadline_of(t, d);
            self.same(
                "deadline",
                (t, d),
                hess_deadline(t, d),
                Reply { number, value },
            );
            let rust = t.saturating_duration_since(d).0;
            self.same("elapsed", (t, d), hess_elapsed(t, d), rust);
            let (number, value) = seconds_of(t);
            let ours = hess_seconds(t).bits();
            self.same("seconds", t, ours, Reply { number, value });
            if number == 0 {
                let std = std::time::Duration::from_nanos(t).as_secs_f64();
                assert_eq!(std.to_bits(), value);
            }
        }
    }

    fn etx(&mut self) {
        for (x, y) in self.float_pairs() {
            for on in [false, true] {
                let (ours, rust) = (hess_fold(x, on), fold_of(x, on));
                self.same("fold", (x, on), plain(ours), plain(rust));
            }
            let (ours, rust) = (hess_quality_index(x, y), quality_index(x, y));
            self.same("quality_index", (x, y), plain(ours), plain(rust));
        }
        self.decay();
    }

    /// Long runs of folds from a new path, each fed its own result.
    fn decay(&mut self) {
        for percent in [0, 1, 10, 50, 90, 99, 100] {
            let (mut ours, mut rust) = (1.0, 1.0);
            for _ in 0..2_000 {
                let on = self.rng.percent(percent);
                (ours, rust) = (hess_fold(ours, on), fold_of(rust, on));
                self.same("fold", (percent, on), ours.to_bits(), rust.to_bits());
            }
        }
    }

    fn floats(&mut self) {
        for (x, y) in self.float_pairs() {
            let z = self.float();
            let (lo, hi) = if y <= z { (y, z) } else { (z, y) };
            if lo <= hi {
                let (ours, rust) = (hess_clamp(x, lo, hi), x.clamp(lo, hi));
                self.same("clamp", (x, lo, hi), plain(ours), plain(rust));
            }
            // Of two zeros Rust may give either.
            let zero = |m: f64| if x == 0.0 && y == 0.0 { m + 0.0 } else { m };
            let (ours, rust) = (zero(hess_max(x, y)), zero(x.max(y)));
            self.same("max", (x, y), plain(ours), plain(rust));
        }
    }

    fn orders(&mut self) {
        for (x, y) in self.float_pairs() {
            let (a, b) = (x.to_bits(), y.to_bits());
            let rust = x.total_cmp(&y).is_le();
            self.same("total_bits", (a, b), hess_total_bits(a, b), rust.into());
            // On floats every NaN is one, positive and quiet.
            let one = |x: f64| f64::from_bits(plain(x));
            let all = one(x).total_cmp(&one(y)).is_le();
            self.same("total", (a, b), hess_total(x, y), all.into());
            let seen = |x: f64| x.is_nan() && x.is_sign_negative();
            if !(seen(x) || seen(y) || x.is_nan() && y.is_nan()) {
                assert_eq!(all, rust, "{x:?} {y:?}");
            }
        }
        for (a, b) in self.pairs() {
            let rust = f64::from_bits(a).total_cmp(&f64::from_bits(b)).is_le();
            self.same("total_bits", (a, b), hess_total_bits(a, b), rust.into());
        }
    }

    /// Pairs of floats: limits and NaNs all with all, then any.
    fn float_pairs(&mut self) -> Vec<(f64, f64)> {
        let edges = || FLOATS.into_iter().chain(NANS.map(f64::from_bits));
        let mut all: Vec<_> = edges().flat_map(|a| edges().map(move |b| (a, b))).collect();
        for _ in 0..CALLS {
            let a = self.float();
            let b = match self.rng.below(4) {
                0 => f64::from_bits(self.rng.near(a.to_bits())),
                1 => -a,
                _ => self.float(),
            };
            all.push((a, b));
        }
        all
    }

    /// Any float: any bits, a limit, beside one, an ETX, a ratio, a NaN.
    fn float(&mut self) -> f64 {
        match self.rng.below(7) {
            0 => f64::from_bits(self.rng.next()),
            1 => self.rng.pick(&FLOATS),
            2 => {
                let bits = self.rng.pick(&FLOATS).to_bits();
                f64::from_bits(self.rng.near(bits))
            }
            3 => 1.0 + self.rng.below(99_000_000) as f64 / 1e6,
            4 => self.rng.below(1_000_000) as f64 / 1e6,
            5 => f64::from_bits(self.rng.next() | 0x7ff0_0000_0000_0000),
            _ => self.rng.wide() as f64,
        }
    }

    fn sizes(&mut self) {
        for full in 0..200 {
            for last in 0..260 {
                self.size(full, true, true, last);
            }
        }
        for _ in 0..CALLS {
            let full = self.length();
            let last = match self.rng.below(3) {
                0 => self.length(),
                1 => self.rng.near(u64::from(full) * 3 / 4) as u32,
                _ => self.rng.near(u64::from(full) / 2) as u32,
            };
            let (fallen, held) = (self.rng.percent(75), self.rng.percent(75));
            self.size(full, fallen, held, last);
        }
    }

    fn length(&mut self) -> u32 {
        match self.rng.below(4) {
            0 => self.rng.below(300) as u32,
            1 => self.rng.wide() as u32,
            2 => self.rng.near(65_535) as u32,
            _ => self.rng.below(65_536) as u32,
        }
    }

    fn size(&mut self, full: u32, fallen: bool, held: bool, last: u32) {
        let (number, value) = size_of(full, fallen, held, last);
        let ours = hess_size(full, fallen, held, last);
        self.same(
            "size",
            (full, fallen, held, last),
            ours,
            Reply { number, value },
        );
    }

    fn timeouts(&mut self) {
        for (a, b) in self.pairs() {
            let (c, d) = (self.rng.wide(), self.rng.wide());
            for [floor, cap, last, largest] in [[a, b, c, d], [c, d, a, b], [a, c, b, d]] {
                self.timeout(floor, cap, last, largest);
            }
        }
    }

    fn timeout(&mut self, floor: u64, cap: u64, last: u64, largest: u64) {
        let (timed, sampled) = (self.rng.percent(75), self.rng.percent(75));
        let some = |on: bool, value: u64| on.then_some(value);
        let (number, value) = timeout_of(floor, cap, some(timed, last), some(sampled, largest));
        let ours = hess_timeout(floor, cap, timed, last, sampled, largest);
        let args = (floor, cap, timed, last, sampled, largest);
        self.same("timeout", args, ours, Reply { number, value });
    }
}

/// A float's bits; document 01 leaves open which NaN an operation yields.
fn plain(x: f64) -> u64 {
    if x.is_nan() { NAN } else { x.to_bits() }
}
