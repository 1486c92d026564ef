//! Our choice beside the Rust's: fields and pairs of rivals, and the small functions around them.
//!
//! The logic has one NaN. So ours, on any bits, is compared with the Rust on the same rivals with
//! every NaN as the positive quiet one. On how many fields the Rust itself answers otherwise
//! where it sees sign and payload is counted beside.

use crate::clib::{
    self, Field, Reply, hess_carried, hess_hold, hess_quicker, hess_score, hess_tier,
};
use crate::random::{LIMITS, Rng};
use crate::rivals::{
    Case, FITS, HELD, INDEX, MARKS, MEDIUM, PINNED, PREFERRED, RTT, SCORE, SCORED, TIER, TIMED,
    field, pair, show, smallest,
};
use oracle::proto::path::choice::{
    BEST, FIELD, Nans, PAIR, Pair, WORDS, best_of, carried_of, choose_of, held_of, hold_of,
    quicker_of, score_of, tier_of, waits_of,
};
use std::collections::BTreeMap;
use std::fmt::Debug;
use std::hint::black_box;
use std::time::Instant;

/// Random fields, pairs, and calls of `Hold`.
const FIELDS: usize = 1_000_000;
const PAIRS: usize = 200_000;
const HOLDS: usize = 200_000;
/// Scores of paths.
const SCORES: usize = 200_000;
const SEED: u64 = 200;
/// Bytes lent past those that are written.
const PAST: usize = 40;
/// Fields of those that a NaN's sign or payload moves that are made smaller.
const SHRUNK: u64 = 200;

/// What the Rust's own answer on raw NaNs showed.
#[derive(Default)]
struct Raw {
    /// With a NaN that is read, and those of them where the answer is another.
    cases: u64,
    moved: u64,
    least: Option<Case>,
}

/// What was compared.
pub struct Fields {
    /// By function: how often each refusal number, 0 for an answer.
    counts: Vec<(&'static str, [u64; 17])>,
    /// By function: answers of 1.
    ones: BTreeMap<&'static str, u64>,
    /// By what a field's choice depends on.
    reasons: BTreeMap<&'static str, u64>,
    raw: BTreeMap<&'static str, Raw>,
    rng: Rng,
    start: Instant,
}

/// Ours on fields in memory, each compared on every field that `choose` is.
type InMemory = fn(&Field, f64) -> Reply;
const IN_MEMORY: [(&str, InMemory); 2] = [
    ("choose_words", clib::choose_words),
    ("choose_rivals", clib::choose_rivals),
];

/// A reference, as the Rust sees NaNs or as ours does.
type Reference = fn(&Case, Nans) -> Pair;

impl Fields {
    /// Compare all of them. A difference ends the program.
    pub fn run() -> Self {
        let mut all = Self {
            counts: Vec::new(),
            ones: BTreeMap::new(),
            reasons: BTreeMap::new(),
            raw: BTreeMap::new(),
            rng: Rng::new(SEED),
            start: Instant::now(),
        };
        all.grid();
        for _ in 0..FIELDS {
            let case = field(&mut all.rng, true);
            all.choose(&case);
            all.best(&case);
        }
        for _ in 0..PAIRS {
            let case = pair(&mut all.rng);
            all.pair("held", &case, clib::held, |c, nans| {
                held_of(&c.bytes(), c.margin(), nans)
            });
            all.pair("waits", &case, clib::waits, |c, nans| {
                waits_of(&c.bytes(), c.margin(), nans)
            });
        }
        all.lengths();
        all.holds();
        all.media();
        all.carried();
        all.scores();
        all
    }

    pub fn print(&self) {
        let seconds = self.start.elapsed().as_secs_f64();
        println!("the choice (seed {SEED}), {seconds:.1} seconds, by refusal number:");
        for (name, numbers) in &self.counts {
            let total: u64 = numbers.iter().sum();
            let seen = numbers.iter().enumerate().filter(|(_, c)| **c > 0);
            let each: Vec<_> = seen.map(|(n, c)| format!("{n}: {c}")).collect();
            let ones = match self.ones.get(name) {
                Some(ones) => format!(", value 1: {ones}"),
                None => String::new(),
            };
            println!("  {name} {total} ({}{ones})", each.join(", "));
        }
        println!("  fields whose choice hangs on:");
        for (reason, count) in &self.reasons {
            println!("    {reason} {count}");
        }
        println!("  with a NaN; where its sign or payload moves the Rust's own answer:");
        for (name, raw) in &self.raw {
            println!("    {name} {}; {}", raw.cases, raw.moved);
        }
        for (name, raw) in &self.raw {
            if let Some(case) = &raw.least {
                let reference = reference(name);
                println!(
                    "  the smallest for {name}: the Rust gives {:?}, with the one NaN {:?}",
                    reference(case, Nans::Raw),
                    reference(case, Nans::One)
                );
                println!("{}", show(case));
            }
        }
    }

    fn count(&mut self, name: &'static str, number: u64) {
        let at = self.counts.iter().position(|(n, _)| *n == name);
        let at = at.unwrap_or_else(|| {
            self.counts.push((name, [0; 17]));
            self.counts.len() - 1
        });
        self.counts[at].1[number as usize] += 1;
    }

    fn one(&mut self, name: &'static str, value: u64) {
        *self.ones.entry(name).or_default() += u64::from(value == 1);
    }

    /// Two rivals, each of 384 kinds, for two margins.
    fn grid(&mut self) {
        let kinds = 6 * 4 * 8 * 2;
        for n in 0..kinds * kinds {
            for margin in [1.0_f64, 1.3] {
                let mut rivals = vec![[0; WORDS]; 8];
                for (place, kind) in [n % kinds, n / kinds].into_iter().enumerate() {
                    rivals[place][HELD] = 1;
                    rivals[place][INDEX] = place as u64;
                    match kind % 6 {
                        time @ 0..3 => {
                            rivals[place][TIMED] = time.min(1);
                            rivals[place][RTT] = time;
                        }
                        score => {
                            rivals[place][SCORED] = 1;
                            rivals[place][SCORE] =
                                [1.0_f64, 1.3, 2.0][score as usize - 3].to_bits();
                        }
                    }
                    rivals[place][MARKS] = (kind / 6 % 4) << 4 | kind / 24 % 8;
                    rivals[place][TIER] = kind / 192;
                }
                let margin = margin.to_bits();
                let case = Case { rivals, margin };
                self.choose(&case);
                self.best(&case);
            }
        }
    }

    fn choose(&mut self, case: &Case) {
        if choose_difference(case).is_some() {
            report("choose", case.clone(), choose_difference);
        }
        let (number, place) = choose(case, Nans::One);
        self.count("choose", number);
        for (name, _) in IN_MEMORY {
            self.count(name, number);
        }
        if number == 0 {
            self.reasons(case, place);
        }
        self.raw("choose", case);
    }

    /// What the choice hangs on: it is another without it.
    fn reasons(&mut self, case: &Case, place: u64) {
        let mut flat = case.clone();
        flat.rivals.iter_mut().for_each(|r| r[TIER] = 0);
        let others = [
            ("pinned", case.marked(PINNED, 0)),
            ("tier", flat),
            ("fits", case.marked(FITS, 0)),
            ("preferred", case.marked(PREFERRED, 0)),
            ("medium", case.marked(0, MEDIUM)),
        ];
        for (name, other) in others {
            let moved = choose(&other, Nans::One) != (0, place);
            *self.reasons.entry(name).or_default() += u64::from(moved);
        }
        let unscored = best(case, Nans::One) == (0, 0);
        *self.reasons.entry("RTTs (no score)").or_default() += u64::from(unscored);
    }

    fn best(&mut self, case: &Case) {
        let lent = match self.rng.below(8) {
            0 => self.rng.below(BEST as u64) as usize,
            1..5 => BEST,
            _ => BEST + self.rng.below(PAST as u64) as usize,
        };
        let differs = |case: &Case| best_difference(&case.bytes(), lent);
        if differs(case).is_some() {
            report("best", case.clone(), differs);
        }
        let number = best_of(&case.bytes(), lent, Nans::One).err();
        self.count("best", number.unwrap_or(0));
        if lent >= BEST {
            self.raw("best", case);
        }
    }

    fn pair(
        &mut self,
        name: &'static str,
        case: &Case,
        ours: fn(&[u8], f64) -> Reply,
        rust: Reference,
    ) {
        let differs = |case: &Case| {
            let given = Given::new(&case.bytes());
            let ours = ours(given.bytes(), case.margin());
            difference(ours, rust(case, Nans::One), &given)
        };
        if differs(case).is_some() {
            report(name, case.clone(), differs);
        }
        let (number, value) = rust(case, Nans::One);
        self.count(name, number);
        self.one(name, value);
        self.raw(name, case);
    }

    /// The Rust's own answer on raw NaNs beside that on the one NaN.
    fn raw(&mut self, name: &'static str, case: &Case) {
        let pair = case.rivals.len() == 2;
        if !case.has_nan(pair) {
            return;
        }
        let reference = reference(name);
        let moves = |case: &Case| reference(case, Nans::Raw) != reference(case, Nans::One);
        let raw = self.raw.entry(name).or_default();
        raw.cases += 1;
        if !moves(case) {
            return;
        }
        raw.moved += 1;
        if raw.moved > SHRUNK {
            return;
        }
        let small = smallest(case.clone(), moves);
        let size = |case: &Case| {
            let words = case.rivals.iter().flatten();
            let bits: u32 = words.map(|w| w.count_ones()).sum();
            (case.held(), bits)
        };
        if raw.least.as_ref().is_none_or(|l| size(&small) < size(l)) {
            raw.least = Some(small);
        }
    }

    /// Bytes that are no field and no pair: 13, and nothing is written.
    fn lengths(&mut self) {
        let bytes = field(&mut self.rng, false).bytes().repeat(2);
        for len in 0..bytes.len() {
            let given = Given::new(&bytes[..len]);
            for margin in [1.3, f64::NAN] {
                let calls: [(_, fn(&[u8], f64) -> Reply, _); 3] = [
                    ("choose", clib::choose, FIELD),
                    ("held", clib::held, PAIR),
                    ("waits", clib::waits, PAIR),
                ];
                for (name, ours, right) in calls {
                    if len != right {
                        let ours = ours(given.bytes(), margin);
                        self.same(name, (len, margin), ours, (13, 0));
                    }
                }
            }
            for lent in [0, 1, BEST - 1, BEST, BEST + PAST] {
                if let Some(what) = best_difference(given.bytes(), lent) {
                    println!("best on {len} bytes, {lent} lent: {what}");
                    std::process::exit(1);
                }
                let number = best_of(given.bytes(), lent, Nans::One).err();
                self.count("best", number.unwrap_or(0));
            }
        }
    }

    /// Count a call, and stop at a difference.
    fn same<A: Debug>(&mut self, name: &'static str, args: A, ours: Reply, rust: Pair) {
        if (ours.number, ours.value) != rust {
            println!("{name}{args:?}: ours {ours:?}, the Rust's {rust:?}");
            std::process::exit(1);
        }
        self.count(name, rust.0);
    }

    fn holds(&mut self) {
        let edges = edges();
        for &at in &edges {
            for &now in &edges {
                for &dwell in &edges {
                    for reports in [0, 1, 2, 3, 255] {
                        self.hold(at, reports, now, dwell);
                    }
                }
            }
        }
        for _ in 0..HOLDS {
            let (at, dwell) = (self.rng.wide(), self.rng.wide() >> self.rng.below(3));
            let now = match self.rng.below(4) {
                0 => self.rng.wide(),
                _ => self.rng.near(at.wrapping_add(dwell)),
            };
            let reports = self.rng.next() as u8;
            self.hold(at, reports % 4, now, dwell);
            self.hold(at, reports, now, dwell);
        }
    }

    fn hold(&mut self, at: u64, reports: u8, now: u64, dwell: u64) {
        let rust = hold_of(at, reports, now, dwell);
        let ours = hess_hold(at, reports, now, dwell);
        self.same("hold", (at, reports, now, dwell), ours, rust);
        self.one("hold", rust.1);
    }

    /// Roles and media, of which the two lowest bits are read.
    fn media(&mut self) {
        let all: Vec<u64> = (0..256).chain(edges()).collect();
        let reply = |value: u64| Reply { number: 0, value };
        for &a in &all {
            self.same("tier", a, reply(hess_tier(a)), (0, tier_of(a)));
            for &b in &all {
                let rust = u64::from(quicker_of(a, b));
                let ours = reply(hess_quicker(a, b).into());
                self.same("quicker", (a, b), ours, (0, rust));
                self.one("quicker", rust);
            }
        }
    }

    /// The score and the score over the horizon of paths with one sample, any ETX and round trip.
    fn scores(&mut self) {
        for n in 0..SCORES {
            let etx = match n % 4 {
                0 => f64::from_bits(self.rng.next()),
                1 => self.rng.pick(&[0.0, -0.0, 1.0, 1.3, 100.0, f64::INFINITY, f64::NAN]),
                _ => 1.0 + self.rng.below(99_000_000) as f64 / 1e6,
            };
            let rtt = match n % 3 {
                0 => self.rng.wide(),
                _ => self.rng.below(2_000_000_000),
            };
            for rust in score_of(etx, rtt) {
                self.same("score", (etx, rtt), hess_score(etx, rtt).bits(), rust);
            }
        }
    }

    /// Every length against each limit, both ways round.
    fn carried(&mut self) {
        #[rustfmt::skip]
        let limits = [
            0, 1, 26, 27, 35, 36, 37, 1034, 1035, 1036, 1071, 1500, 32_767, 32_768, 65_498, 65_499,
            65_500, 65_534, 65_535, 65_536, 65_572, 1 << 31, u32::MAX,
        ];
        for len in (0..65_600).chain(limits) {
            for limit in limits {
                for (link, proven) in [(len, limit), (limit, len)] {
                    for n in 0..4 {
                        let (held, oriented) = (n % 2 == 1, n / 2 == 1);
                        let rust = carried_of(link, held.then_some(proven), oriented);
                        let ours = hess_carried(link, held, proven, oriented);
                        self.same("carried", (link, held, proven, oriented), ours, rust);
                    }
                }
            }
        }
    }
}

/// The limits, and one step to each side.
fn edges() -> Vec<u64> {
    let beside = |x: u64| [x.wrapping_sub(1), x, x.wrapping_add(1)];
    let mut all: Vec<u64> = LIMITS.into_iter().flat_map(beside).collect();
    all.sort();
    all.dedup();
    all
}

/// Bytes at an odd place, which ours must leave as they are.
struct Given {
    bytes: Vec<u8>,
    copy: Vec<u8>,
}

impl Given {
    fn new(bytes: &[u8]) -> Self {
        let bytes = [&[0], bytes].concat();
        Self {
            copy: bytes.clone(),
            bytes,
        }
    }

    fn bytes(&self) -> &[u8] {
        &self.bytes[1..]
    }
}

/// How ours differs, if it does.
fn difference(ours: Reply, rust: Pair, given: &Given) -> Option<String> {
    if (ours.number, ours.value) != rust {
        let ours = (ours.number, ours.value);
        return Some(format!("ours {ours:?}, the Rust's {rust:?}"));
    }
    (given.bytes != given.copy).then(|| "ours changes the rivals' bytes".to_string())
}

/// The choice from bytes, then on the same field in memory.
fn choose_difference(case: &Case) -> Option<String> {
    let given = Given::new(&case.bytes());
    let ours = clib::choose(given.bytes(), case.margin());
    let rust = choose(case, Nans::One);
    let from_bytes = difference(ours, rust, &given);
    from_bytes.or_else(|| {
        let mut all = IN_MEMORY.into_iter();
        all.find_map(|(name, ours)| memory_difference(case, name, ours, rust))
    })
}

/// A field at the least place that words may have, between two words; ours must leave all of them.
#[derive(Clone, PartialEq)]
#[repr(C, align(64))]
struct Lent {
    before: u64,
    field: Field,
    after: u64,
}

/// The choice on a field in memory.
fn memory_difference(case: &Case, name: &str, ours: InMemory, rust: Pair) -> Option<String> {
    let mut lent = Lent {
        before: 1,
        field: core::array::from_fn(|n| case.rivals[n]),
        after: 1,
    };
    let copy = lent.clone();
    let ours = ours(&lent.field, case.margin());
    // What ours was lent to read is read anew.
    if *black_box(&mut lent) != copy {
        return Some(format!("{name}: ours changes the rivals' words"));
    }
    let ours = (ours.number, ours.value);
    (ours != rust).then(|| format!("{name}: ours {ours:?}, the Rust's {rust:?}"))
}

/// `best` with so many bytes lent: the number, the two words, and every byte that must stand.
fn best_difference(bytes: &[u8], lent: usize) -> Option<String> {
    let given = Given::new(bytes);
    let before: Vec<u8> = (0..lent + PAST).map(|n| (n * 7 + 90) as u8).collect();
    let mut after = before.clone();
    let ours = clib::best(given.bytes(), &mut after[..lent]);
    let rust = best_of(bytes, lent, Nans::One);
    let mut expected = before;
    if let Ok(words) = rust {
        expected[..BEST].copy_from_slice(&words.map(u64::to_le_bytes).concat());
    }
    let number = rust.err().unwrap_or(0);
    if ours != number {
        return Some(format!("{lent} lent: ours {ours}, the Rust's {number}"));
    }
    if let Some(at) = (0..after.len()).find(|&n| after[n] != expected[n]) {
        return Some(format!(
            "{lent} lent, number {number}: byte {at} is {:#04x} and not {:#04x}",
            after[at], expected[at]
        ));
    }
    (given.bytes != given.copy).then(|| "ours changes the rivals' bytes".to_string())
}

fn choose(case: &Case, nans: Nans) -> Pair {
    choose_of(&case.bytes(), case.margin(), nans)
}

/// The refusal with 0, or whether there is a best with its bits.
fn best(case: &Case, nans: Nans) -> Pair {
    match best_of(&case.bytes(), BEST, nans) {
        Ok([some, bits]) => (some, bits),
        Err(number) => (number, 0),
    }
}

fn reference(name: &str) -> Reference {
    match name {
        "choose" => choose,
        "best" => best,
        "held" => |c, nans| held_of(&c.bytes(), c.margin(), nans),
        _ => |c, nans| waits_of(&c.bytes(), c.margin(), nans),
    }
}

/// Print the smallest case that shows a difference, and end.
fn report(name: &str, case: Case, differs: impl Fn(&Case) -> Option<String>) -> ! {
    let case = smallest(case, |case| differs(case).is_some());
    let what = differs(&case).unwrap_or_else(|| "gone on a second run".to_string());
    println!("{name}: {what}");
    println!("{}", show(&case));
    std::process::exit(1)
}
