//! Scripts of calls from fixed seeds, in several flavours. A scene runs the Rust's path beside
//! the script that it makes, so that arguments can aim at the path's own instants, identifiers
//! and sizes, and beside them.

use crate::aims::{MS, SECOND, answered_since, duration, instants, waits_since, weighted};
use crate::calls::{Arg, IDS, LAST, LATE, OPS, PROVEN, RING, SEEK, op};
use crate::random::{LIMITS, Rng};
use oracle::proto::path::script::{Call, Image, Path, Reply};

/// How a flavour's scripts are made.
pub struct Flavour {
    pub name: &'static str,
    pub seed: u64,
    /// Calls and their weights.
    calls: &'static [(&'static str, u64)],
    /// Where the clock may start, and its steps.
    starts: &'static [u64],
    steps: &'static [u64],
    /// First identifiers.
    draws: &'static [u64],
    /// Padded sizes.
    sizes: &'static [u64],
    /// Instants, in a hundred, that don't follow the clock but aim at the path's own.
    aimed: u64,
    /// Arguments, in a hundred, that are any number at all.
    stray: u64,
    /// Words, in a hundred, that are spoilt after all, calls and unused words included.
    damage: u64,
    /// Whether a size search is led through to its end, on a path that carries some sizes only.
    search: bool,
}

/// Ordinary life; the others say what they do otherwise.
#[rustfmt::skip]
const LIFE: Flavour = Flavour {
    name: "life",
    seed: 1,
    calls: &[
        ("send", 14), ("answer", 12), ("expire", 12), ("take_id", 1), ("lapse", 2), ("room", 2),
        ("fresh", 3), ("thaw", 3), ("clear", 1), ("size", 6), ("sample", 6), ("fold", 4),
        ("prove", 2), ("seek_size", 3), ("seek_send", 2), ("seek_ring", 2), ("seek_answer", 2),
        ("seek_proved", 2), ("seek_judge", 2), ("halt", 2), ("spend", 2), ("owe", 1),
        ("rebase", 1), ("timeout", 2), ("heard", 2), ("carried", 4), ("shed", 1), ("stopped", 1),
        ("held", 1), ("recheck", 1), ("outstanding", 1), ("samples", 1), ("min_rtt", 1),
        ("max_rtt", 1), ("base_rtt", 1), ("earliest_due", 1), ("score", 1), ("steady", 1),
        ("misses", 1), ("rtt", 1), ("etx", 1), ("mtu", 1), ("frames", 1), ("bytes", 1),
        ("heard_at", 1), ("data_at", 1), ("quiet", 1), ("matching", 3),
    ],
    starts: &[0, 1, 1000, 5 * SECOND],
    steps: &[0, 1, 2, 50, MS, SECOND],
    draws: &[7, 1_000_000, 0x8000_0000],
    sizes: &[27, 28, 36, 40, 54, 55, 100, 132, 133, 1200, 65_535],
    aimed: 20,
    stray: 0,
    damage: 0,
    search: false,
};

/// The flavours, in the order in which they run.
#[rustfmt::skip]
pub const FLAVOURS: [Flavour; 9] = [
    LIFE,
    Flavour {
        name: "clocks",
        seed: 2,
        starts: &[0, 3, u64::MAX - 5, u64::MAX, u64::MAX - 40 * SECOND, 1 << 63, 1 << 62],
        steps: &[0, 1, 7, SECOND, 1 << 61],
        aimed: 60,
        stray: 8,
        ..LIFE
    },
    Flavour {
        name: "wrap",
        seed: 3,
        calls: &[
            ("send", 30), ("answer", 26), ("expire", 22), ("take_id", 6), ("lapse", 6),
            ("fresh", 6), ("thaw", 8), ("clear", 2), ("seek_send", 4), ("seek_answer", 4),
            ("seek_judge", 6), ("size", 4), ("matching", 8), ("misses", 4),
        ],
        draws: &[
            u64::MAX, 0xffff_fffe, 0xffff_fffb, 0x7fff_ffff, 0x7fff_fffd, 0x8000_0000, 0, 1,
        ],
        ..LIFE
    },
    Flavour {
        name: "expire",
        seed: 4,
        calls: &[
            ("send", 30), ("expire", 40), ("carried", 14), ("answer", 8), ("thaw", 3),
            ("fresh", 3), ("size", 4), ("clear", 1), ("outstanding", 2), ("earliest_due", 3),
            ("seek_ring", 3),
        ],
        steps: &[0, 1, 2, 3],
        aimed: 40,
        ..LIFE
    },
    Flavour {
        name: "search",
        seed: 5,
        calls: &[
            ("seek_size", 20), ("seek_send", 4), ("seek_answer", 10), ("seek_proved", 6),
            ("seek_judge", 10), ("seek_ring", 3), ("send", 10), ("answer", 10), ("prove", 4),
            ("fresh", 1), ("expire", 3), ("take_id", 2),
        ],
        steps: &[0, 1, MS, SECOND, 600 * SECOND],
        aimed: 40,
        search: true,
        ..LIFE
    },
    Flavour {
        name: "samples",
        seed: 6,
        calls: &[
            ("sample", 80), ("timeout", 4), ("min_rtt", 3), ("max_rtt", 3), ("base_rtt", 3),
            ("samples", 3), ("fold", 6), ("score", 6), ("steady", 6), ("rtt", 2), ("etx", 2),
        ],
        steps: &[0, 1, 2, 3, MS, SECOND],
        aimed: 15,
        ..LIFE
    },
    Flavour {
        name: "spans",
        seed: 7,
        calls: &[
            ("sample", 80), ("base_rtt", 5), ("timeout", 5), ("score", 6), ("steady", 6),
        ],
        starts: &[0, 100, u64::MAX - 100, 1 << 63],
        steps: &[0, 0, 1, 2, 10],
        aimed: 50,
        ..LIFE
    },
    Flavour {
        name: "stop",
        seed: 8,
        calls: &[
            ("halt", 10), ("spend", 34), ("owe", 14), ("rebase", 18), ("send", 6), ("held", 6),
            ("recheck", 6), ("stopped", 3), ("answer", 2), ("new", 3),
        ],
        starts: &[0, 90, 90 * SECOND, u64::MAX - 31 * SECOND, u64::MAX - SECOND],
        steps: &[0, 1, SECOND - 1, SECOND, SECOND + 1, 7 * SECOND, 30 * SECOND],
        aimed: 30,
        ..LIFE
    },
    Flavour {
        name: "damaged",
        seed: 9,
        stray: 12,
        damage: 8,
        ..LIFE
    },
];

/// One script on its way.
struct Scene<'a> {
    flavour: &'a Flavour,
    rng: Rng,
    path: Path,
    image: Image,
    last: (Call, Reply),
    now: u64,
    step: u64,
    draw: u64,
    full: u64,
    /// The largest size that the path carries, in a search that is led.
    carries: u64,
    /// The script's own durations: cap, gap, window, horizon.
    times: [u64; 4],
}

/// A script of `len` calls of a flavour.
pub fn script(flavour: &Flavour, rng: Rng, len: usize) -> Vec<Call> {
    let mut scene = Scene::new(flavour, rng);
    (0..len).map(|_| scene.next()).collect()
}

impl<'a> Scene<'a> {
    fn new(flavour: &'a Flavour, mut rng: Rng) -> Self {
        let path = Path::new();
        let step = rng.pick(flavour.steps);
        let mut scene = Self {
            now: rng.pick(flavour.starts),
            draw: rng.pick(flavour.draws),
            full: rng.pick(flavour.sizes),
            carries: 27 + (rng.next() % 65_536 >> rng.below(16)),
            times: [0; 4],
            image: path.image(),
            last: ([99, 0, 0, 0, 0, 0], [0; 6]),
            flavour,
            rng,
            path,
            step,
        };
        scene.times = core::array::from_fn(|_| duration(&mut scene.rng, flavour.steps));
        scene
    }

    /// The next call, made on the path too.
    fn next(&mut self) -> Call {
        let mut call = self.follow().unwrap_or_else(|| self.any_call());
        self.through(&mut call);
        for word in &mut call {
            if self.rng.percent(self.flavour.damage) {
                *word = self.rng.wide();
            }
        }
        self.last = (call, self.path.call(call));
        self.image = self.path.image();
        call
    }

    /// A send and an answer go through a reference every second time.
    fn through(&mut self, call: &mut Call) {
        for (name, other) in [("send", "send_ref"), ("answer", "answer_ref")] {
            if call[0] == op(name) && self.rng.percent(50) {
                call[0] = op(other);
                return;
            }
        }
    }

    /// What a caller does after the last call, four times in five.
    fn follow(&mut self) -> Option<Call> {
        if self.rng.percent(20) {
            return None;
        }
        self.settle()
            .or_else(|| self.flavour.search.then(|| self.lead()))
    }

    /// What an accepted proposal or search answer calls for.
    fn settle(&mut self) -> Option<Call> {
        let ([last, ..], [number, value, ..]) = self.last;
        if number != 0 {
            return None;
        }
        if last == op("seek_size") {
            return Some([op("seek_send"), self.now, value, self.draw, 0, 0]);
        }
        if last == op("seek_answer") {
            let acked = match self.rng.below(4) {
                0 => self.length(),
                1 => self.rng.below(value + 2),
                _ => value,
            };
            return Some([op("seek_proved"), value, acked, self.instant(), 0, 0]);
        }
        None
    }

    /// The next step of a size search: prove, propose, answer what the path carries, and judge
    /// the rest once a later probe is answered.
    fn lead(&mut self) -> Call {
        let i = self.image;
        let (out, id) = (i[SEEK + 3], i[SEEK + 2]);
        if i[PROVEN] == 0 {
            return [op("prove"), self.rng.pick(&[27, 28, 60]), 0, 0, 0, 0];
        }
        if i[SEEK + 4] > 60 && self.rng.percent(4) {
            return [op("prove"), self.rng.near(i[SEEK + 4] - 32), 0, 0, 0, 0];
        }
        if out == 0 {
            self.now = self.now.max(i[SEEK + 1]);
            return [op("seek_size"), self.full, self.now, 0, 0, 0];
        }
        if out <= self.carries {
            return [op("seek_answer"), id, self.times[1], 0, 0, 0];
        }
        if answered_since(&i) {
            let (now, timeout) = (i[SEEK + 1].saturating_add(self.times[0]), self.times[0]);
            return [
                op("seek_judge"),
                self.rng.near(now),
                timeout,
                self.times[1],
                0,
                0,
            ];
        }
        match waits_since(&i) {
            Some(id) => [op("answer"), id, 0, 0, 0, 0],
            None => [op("send"), self.now, self.due(), 27, self.draw, 0],
        }
    }

    /// A call by its weight, with arguments.
    fn any_call(&mut self) -> Call {
        let name = weighted(&mut self.rng, self.flavour.calls);
        let mut call = [op(name), 0, 0, 0, 0, 0];
        for (n, &(_, arg)) in OPS[call[0] as usize].1.iter().enumerate() {
            call[n + 1] = self.argument(arg);
        }
        call
    }

    fn argument(&mut self, arg: Arg) -> u64 {
        if self.rng.percent(self.flavour.stray) {
            return self.rng.wide();
        }
        match arg {
            Arg::At => self.instant(),
            Arg::Due => self.due(),
            Arg::Time => self.time(),
            Arg::Len => self.length(),
            Arg::Id => self.identifier(),
            Arg::Draw => self.draw,
            Arg::Flag => self.rng.pick(&[0, 1, 0, 1, 0, 1, 2, u64::MAX]),
            Arg::Count => self.rng.pick(&[0, 1, 2, 4, 7, 8, 9, 1 << 32, u64::MAX]),
        }
    }

    /// The clock, moved on; or an instant that the path knows, or a rule's distance from one.
    fn instant(&mut self) -> u64 {
        if self.rng.percent(self.flavour.aimed) {
            let known = instants(&self.image, self.now);
            let far = self.distance();
            let at = self.rng.pick(&known).wrapping_add(far);
            return self.rng.near(at);
        }
        if self.rng.percent(30) {
            self.step = self.rng.pick(self.flavour.steps);
        }
        self.now = self.now.wrapping_add(self.step);
        self.now
    }

    fn due(&mut self) -> u64 {
        let step = self.rng.pick(self.flavour.steps);
        let far = self
            .rng
            .pick(&[0, 1, step, 3 * step, self.times[0], self.times[0] / 2]);
        self.now.saturating_add(far)
    }

    /// A distance at which some rule turns.
    fn distance(&mut self) -> u64 {
        let time = self.rng.pick(&self.times.clone());
        self.rng
            .pick(&[0, 0, 0, time, time / 6, SECOND, 30 * SECOND, 600 * SECOND])
    }

    /// One of the script's durations, as a caller keeps them, or another.
    fn time(&mut self) -> u64 {
        match self.rng.below(40) {
            0 => self.rng.near(1 << 62),
            1..5 => duration(&mut self.rng, self.flavour.steps),
            _ => self.rng.pick(&self.times.clone()),
        }
    }

    fn length(&mut self) -> u64 {
        let i = &self.image;
        #[rustfmt::skip]
        let known = [
            self.full, self.full, self.full, self.full * 3 / 4, self.full / 2, i[LAST + 1],
            i[PROVEN + 1], i[PROVEN + 1] + 32, i[SEEK + 3], i[SEEK + 4], 26, 27, 28, 0, 65_535,
        ];
        let len = self.rng.pick(&known);
        match self.rng.below(20) {
            0 => self.rng.near(len),
            1 => self.rng.below(70_000),
            2 => 65_536,
            3 => len + (1 << 32),
            _ => len,
        }
    }

    /// An identifier that the path holds, or one beside it or half the circle from it.
    fn identifier(&mut self) -> u64 {
        let i = &self.image;
        let mut known = vec![i[IDS + 1].wrapping_sub(1), i[SEEK + 2]];
        for at in (RING..IDS).step_by(5).filter(|&at| i[at] == 1) {
            let times = if at < LATE { 3 } else { 1 };
            known.extend([i[at + 1]].repeat(times));
        }
        known.extend([i[IDS + 3], i[IDS + 5], i[IDS + 7]]);
        let id = self.rng.pick(&known);
        match self.rng.below(24) {
            0 => self.rng.near(id),
            1 => id ^ (1 << 31),
            2 => id.wrapping_add(1 << 32),
            3 => self.rng.pick(&LIMITS),
            _ => id,
        }
    }
}
