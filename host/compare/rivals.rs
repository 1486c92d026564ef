//! Rivals in words: from a fixed seed, made smaller, and shown.

use crate::random::Rng;
use oracle::proto::path::choice::{NAN, PLACES, RIVAL, WORDS, words};
use std::cell::Cell;

/// Runs that a case is made smaller in.
const TRIES: usize = 200_000;

/// A rival in words.
pub type Rival = [u64; WORDS];

/// The rivals of a field in bytes.
pub fn rivals_of(bytes: &[u8]) -> [Rival; PLACES] {
    core::array::from_fn(|n| words(&bytes[RIVAL * n..]))
}

/// Where the words stand.
pub const HELD: usize = 0;
pub const INDEX: usize = 1;
pub const SCORED: usize = 2;
pub const SCORE: usize = 3;
pub const TIMED: usize = 4;
pub const RTT: usize = 5;
pub const STEADY: usize = 7;
pub const BASE: usize = 9;
pub const TIER: usize = 10;
pub const MARKS: usize = 11;
/// Marks.
pub const PREFERRED: u64 = 1;
pub const PINNED: u64 = 2;
pub const FITS: u64 = 4;
pub const MEDIUM: u64 = 3 << 4;

/// The limit of durations.
const LONG: u64 = 1 << 62;

/// Negative NaN's bits.
const MINUS_NAN: u64 = NAN | 1 << 63;

/// The eight places of a field, or the two rivals of a pair, and a margin's bits.
#[derive(Clone, Debug, PartialEq, Eq)]
pub struct Case {
    pub rivals: Vec<Rival>,
    pub margin: u64,
}

impl Case {
    pub fn margin(&self) -> f64 {
        f64::from_bits(self.margin)
    }

    pub fn bytes(&self) -> Vec<u8> {
        let mut bytes = Vec::with_capacity(self.rivals.len() * RIVAL);
        for word in self.rivals.iter().flatten() {
            bytes.extend_from_slice(&word.to_le_bytes());
        }
        bytes
    }

    /// How many rivals are marked as held.
    pub fn held(&self) -> usize {
        self.rivals.iter().filter(|r| r[HELD] % 2 == 1).count()
    }

    /// Whether a score or steady score that is there is a NaN, of rivals that are read.
    pub fn has_nan(&self, all: bool) -> bool {
        let nan = |r: &Rival, n: usize| r[n - 1] % 2 == 1 && f64::from_bits(r[n]).is_nan();
        let read = |r: &&Rival| all || r[HELD] % 2 == 1;
        let mut rivals = self.rivals.iter().filter(read);
        rivals.any(|r| nan(r, SCORE) || nan(r, STEADY))
    }

    /// The rivals with these bits of the marks cleared, and set.
    pub fn marked(&self, clear: u64, set: u64) -> Self {
        let mut all = self.clone();
        for rival in &mut all.rivals {
            rival[MARKS] = rival[MARKS] & !clear | set;
        }
        all
    }
}

/// Sets of tiers.
const TIERS: [&[u64]; 8] = [
    &[2],
    &[2],
    &[0],
    &[1],
    &[2, 1],
    &[2, 1, 0],
    &[2, 2, 2, 1, 0, 3, 255, 256, 258],
    &[],
];

/// What the rivals of one case have in common, so that they meet: few scores, few times.
struct Taste {
    scores: Vec<u64>,
    times: Vec<u64>,
    scored: u64,
    nan: u64,
    preferred: u64,
    pinned: u64,
    fits: u64,
    /// The tiers that a rival's is picked from, none for any.
    tiers: &'static [u64],
    long: u64,
    stray: u64,
}

impl Taste {
    fn new(rng: &mut Rng, margin: f64, nans: bool) -> Self {
        let first = float(rng);
        let mut scores = vec![first.to_bits()];
        for _ in 0..rng.below(4) {
            let near = (first * margin).to_bits();
            let next = match rng.below(6) {
                0 => near,
                1 => rng.near(near),
                2 => rng.near(first.to_bits()),
                3 => (-first).to_bits(),
                4 => (first * (1.0 + rng.below(1000) as f64 / 1000.0)).to_bits(),
                _ => float(rng).to_bits(),
            };
            scores.push(next);
        }
        scores.retain(|&bits| nans || !f64::from_bits(bits).is_nan());
        let times = (0..1 + rng.below(4)).map(|_| time(rng)).collect();
        let rare = |rng: &mut Rng| if rng.percent(10) { 10 } else { 0 };
        let mut taste = Self {
            scores,
            times,
            scored: rng.pick(&[0, 50, 80, 100]),
            nan: if nans && rng.percent(25) { 25 } else { 0 },
            preferred: rng.pick(&[0, 30, 60]),
            pinned: rng.pick(&[0, 0, 0, 30, 100]),
            fits: rng.pick(&[0, 60, 100]),
            tiers: rng.pick(&TIERS),
            long: rare(rng),
            stray: rare(rng),
        };
        // Scores and media decide more often where all are ranked.
        if rng.percent(40) {
            taste.scored = 90;
            (taste.pinned, taste.fits) = (0, 100);
            taste.tiers = TIERS[0];
        }
        taste
    }

    fn score(&self, rng: &mut Rng) -> u64 {
        if rng.percent(self.nan) {
            nan(rng)
        } else {
            rng.pick(&self.scores)
        }
    }

    fn time(&self, rng: &mut Rng) -> u64 {
        if rng.percent(self.long) {
            LONG + rng.pick(&[0, 0, 1, 1 << 62, (3 << 62) - 1])
        } else {
            rng.pick(&self.times)
        }
    }

    /// A rival that is held in this place. A word behind an even flag is any.
    fn rival(&self, rng: &mut Rng, place: usize) -> Rival {
        let mut words = [0; WORDS];
        words[HELD] = if rng.percent(90) { 1 } else { rng.next() | 1 };
        words[INDEX] = match rng.percent(self.stray) {
            true => rng.wide(),
            false => place as u64,
        };
        for (n, percent) in [(SCORE, self.scored), (STEADY, 75)] {
            self.some(rng, &mut words, n, percent, Self::score);
        }
        for n in [RTT, BASE] {
            self.some(rng, &mut words, n, 75, Self::time);
        }
        words[TIER] = match self.tiers {
            [] => rng.wide(),
            some => rng.pick(some),
        };
        let mark = |on: bool, bit: u64| if on { bit } else { 0 };
        words[MARKS] = mark(rng.percent(self.preferred), PREFERRED)
            | mark(rng.percent(self.pinned), PINNED)
            | mark(rng.percent(self.fits), FITS)
            | rng.below(4) << 4;
        if rng.percent(10) {
            words[MARKS] |= rng.next() & !(PREFERRED | PINNED | FITS | MEDIUM);
        }
        words
    }

    fn some(
        &self,
        rng: &mut Rng,
        words: &mut Rival,
        n: usize,
        percent: u64,
        value: fn(&Self, &mut Rng) -> u64,
    ) {
        if rng.percent(percent) {
            words[n - 1] = if rng.percent(90) { 1 } else { rng.next() | 1 };
            words[n] = value(self, rng);
        } else if rng.percent(50) {
            words[n - 1] = rng.next() & !1;
            words[n] = rng.wide();
        }
    }
}

/// A field: 0 to 8 rivals in any places, the others' words zero or any.
pub fn field(rng: &mut Rng, nans: bool) -> Case {
    let margin = margin(rng, nans);
    let taste = Taste::new(rng, f64::from_bits(margin), nans);
    let mut places: Vec<usize> = (0..PLACES).collect();
    for n in (1..PLACES).rev() {
        places.swap(n, rng.below(n as u64 + 1) as usize);
    }
    let held = if rng.percent(2) { 0 } else { 1 + rng.below(8) } as usize;
    let garbage = rng.percent(50);
    let mut rivals = vec![[0; WORDS]; PLACES];
    for (n, place) in places.into_iter().enumerate() {
        if n < held {
            rivals[place] = taste.rival(rng, place);
        } else if garbage {
            rivals[place] = core::array::from_fn(|_| rng.wide());
            rivals[place][HELD] &= !1;
        }
    }
    Case { rivals, margin }
}

/// The rivals `to` and `from`, whose held marks and indices are any.
pub fn pair(rng: &mut Rng) -> Case {
    let margin = margin(rng, true);
    let taste = Taste::new(rng, f64::from_bits(margin), true);
    let mut rivals = vec![taste.rival(rng, 0), taste.rival(rng, 1)];
    for rival in &mut rivals {
        if rng.percent(25) {
            rival[HELD] = rng.next();
            rival[INDEX] = rng.wide();
        }
    }
    Case { rivals, margin }
}

/// A margin's bits: mostly one that a node would set, or any.
fn margin(rng: &mut Rng, nans: bool) -> u64 {
    const ODD: [f64; 13] = [
        f64::INFINITY,
        f64::NEG_INFINITY,
        -1.0,
        -1.3,
        -0.0,
        0.0,
        0.5,
        2.0,
        1e9,
        f64::MAX,
        f64::MIN_POSITIVE,
        f64::from_bits(1),
        0.9999999999999999,
    ];
    match rng.below(10) {
        0..3 => 1.0_f64.to_bits(),
        3..6 => 1.3_f64.to_bits(),
        6 => (1.0 + rng.below(2000) as f64 / 1000.0).to_bits(),
        7 if nans => nan(rng),
        _ => rng.pick(&ODD).to_bits(),
    }
}

/// A NaN's bits, of either sign, quiet or not.
fn nan(rng: &mut Rng) -> u64 {
    const NANS: [u64; 6] = [
        NAN,
        MINUS_NAN,
        NAN | 1,
        0x7ff0_0000_0000_0001,
        0xfff0_0000_0000_0001,
        u64::MAX,
    ];
    match rng.below(4) {
        0 => rng.next() | 0x7ff0_0000_0000_0001,
        _ => rng.pick(&NANS),
    }
}

/// A float that is no NaN: mostly a score that a path could have, else a limit or any.
fn float(rng: &mut Rng) -> f64 {
    const EDGES: [f64; 12] = [
        0.0,
        -0.0,
        f64::INFINITY,
        f64::NEG_INFINITY,
        f64::MIN_POSITIVE,
        -f64::MIN_POSITIVE,
        f64::from_bits(1),
        f64::from_bits(1 | 1 << 63),
        f64::from_bits((1 << 52) - 1),
        f64::MAX,
        f64::MIN,
        1.0,
    ];
    let x = match rng.below(8) {
        0 => f64::from_bits(rng.next()),
        1 => rng.pick(&EDGES),
        2 => f64::from_bits(rng.near(rng.clone().pick(&EDGES).to_bits())),
        3 => f64::from_bits(rng.below(1 << 52) | rng.below(2) << 63),
        4 => rng.below(4) as f64,
        _ => 1.0 + rng.below(99_000) as f64 / 1e3,
    };
    if x.is_nan() { 1.0 } else { x }
}

/// A duration below 2^62.
fn time(rng: &mut Rng) -> u64 {
    match rng.below(4) {
        0 => rng.below(4),
        1 => rng.pick(&[LONG - 1, LONG - 2, 0, 1]),
        2 => rng.wide() % LONG,
        _ => rng.below(1000) * 1_000_000,
    }
}

/// Floats to try in place of one, the plainest first.
const PLAIN: [u64; 9] = [
    0,
    0x3ff0_0000_0000_0000,
    0x4000_0000_0000_0000,
    0x3ff8_0000_0000_0000,
    0x3fe0_0000_0000_0000,
    1 << 63,
    0x7ff0_0000_0000_0000,
    NAN,
    MINUS_NAN,
];

/// Margins to try in place of one.
const MARGINS: [f64; 7] = [1.0, 1.3, 2.0, 0.5, 0.0, -1.0, f64::INFINITY];

fn plainer(bits: u64) -> Vec<u64> {
    match PLAIN.iter().position(|&b| b == bits) {
        Some(n) => PLAIN[..n].to_vec(),
        None => PLAIN.into_iter().chain(smaller(bits)).collect(),
    }
}

/// Numbers to try in place of one.
fn smaller(word: u64) -> Vec<u64> {
    let mut all = vec![0, 1, 2, word / 2];
    all.extend((0..64).rev().map(|bit| word & !(1 << bit)));
    all.push(word.saturating_sub(1));
    all.retain(|&w| w < word);
    all
}

/// The same on fewer rivals, in lower places, then on plainer numbers (one, or all that are
/// equal): greedily, while `shows`.
pub fn smallest(mut case: Case, shows: impl Fn(&Case) -> bool) -> Case {
    let tries = Cell::new(0);
    let shows = |case: &Case| {
        tries.set(tries.get() + 1);
        tries.get() < TRIES && shows(case)
    };
    loop {
        let before = case.clone();
        for n in 0..case.rivals.len() {
            let fewer = with(&case, n, [0; WORDS]);
            keep(&mut case, fewer, &shows);
        }
        if case.rivals.len() == PLACES {
            lower(&mut case, &shows);
        }
        for n in 0..case.rivals.len() * WORDS {
            let (place, w) = (n / WORDS, n % WORDS);
            let old = case.rivals[place][w];
            let tries = match w {
                INDEX if old == place as u64 => Vec::new(),
                INDEX if case.rivals[place][HELD] % 2 == 1 => {
                    [place as u64].into_iter().chain(smaller(old)).collect()
                }
                SCORE | STEADY => plainer(old),
                _ => smaller(old),
            };
            for new in tries {
                let mut rival = case.rivals[place];
                rival[w] = new;
                let one = with(&case, place, rival);
                let all = with_all(&case, w, old, new);
                if keep(&mut case, one, &shows) || keep(&mut case, all, &shows) {
                    break;
                }
            }
        }
        let at = MARGINS.iter().position(|m| m.to_bits() == case.margin);
        for margin in &MARGINS[..at.unwrap_or(MARGINS.len())] {
            let margin = margin.to_bits();
            let one = Case {
                margin,
                ..case.clone()
            };
            if keep(&mut case, one, &shows) {
                break;
            }
        }
        if case == before {
            return case;
        }
    }
}

/// Every rival to the lowest free place, its index with it.
fn lower(case: &mut Case, shows: &impl Fn(&Case) -> bool) {
    for from in 1..PLACES {
        let free = (0..from).find(|&to| case.rivals[to] == [0; WORDS]);
        let (Some(to), true) = (free, case.rivals[from] != [0; WORDS]) else {
            continue;
        };
        let mut moved = with(case, from, [0; WORDS]);
        let mut rival = case.rivals[from];
        if rival[INDEX] == from as u64 {
            rival[INDEX] = to as u64;
        }
        moved.rivals[to] = rival;
        keep(case, moved, shows);
    }
}

/// The case with another rival in a place.
fn with(case: &Case, place: usize, rival: Rival) -> Case {
    let mut other = case.clone();
    other.rivals[place] = rival;
    other
}

/// The case with every value, or every tier, that is `old` replaced; or with the marks that `new`
/// lacks cleared everywhere.
fn with_all(case: &Case, word: usize, old: u64, new: u64) -> Case {
    let mut other = case.clone();
    for rival in &mut other.rivals {
        match word {
            SCORED..TIER => {
                let values = rival[SCORED..TIER].iter_mut();
                values.filter(|v| **v == old).for_each(|v| *v = new);
            }
            TIER if rival[TIER] == old => rival[TIER] = new,
            MARKS => rival[MARKS] &= !(old & !new),
            _ => {}
        }
    }
    other
}

/// Take the new case if it is another and still shows what it should.
fn keep(case: &mut Case, new: Case, shows: &impl Fn(&Case) -> bool) -> bool {
    let better = new != *case && shows(&new);
    if better {
        *case = new;
    }
    better
}

/// A case in lines for people: the margin, then the rivals of a pair, or those of a field that
/// have any word set.
pub fn show(case: &Case) -> String {
    let mut text = format!("  margin {}", number(case.margin));
    for (place, rival) in case.rivals.iter().enumerate() {
        let name = match (case.rivals.len(), place) {
            (2, 0) => "to".to_string(),
            (2, _) => "from".to_string(),
            _ if *rival == [0; WORDS] => continue,
            _ if rival[HELD] % 2 == 1 => format!("place {place}, index {}", rival[INDEX]),
            _ => format!("place {place}, not held"),
        };
        text += &format!("\n  {name}: {}; words {rival:x?}", show_rival(rival));
    }
    text
}

fn show_rival(r: &Rival) -> String {
    let mut text = String::new();
    let some = |n: usize| r[n - 1] % 2 == 1;
    for (n, name) in [(SCORE, "score"), (STEADY, "steady")] {
        if some(n) {
            text += &format!("{name} {}, ", number(r[n]));
        }
    }
    for (n, name) in [(RTT, "rtt"), (BASE, "base")] {
        if some(n) {
            text += &format!("{name} {}, ", r[n]);
        }
    }
    text += &format!("tier {}", r[TIER] % 256);
    for (bit, name) in [(PREFERRED, "preferred"), (PINNED, "pinned"), (FITS, "fits")] {
        if r[MARKS] & bit != 0 {
            text += &format!(", {name}");
        }
    }
    let medium = ["BLE", "wired", "wireless", "unknown"][(r[MARKS] >> 4 & 3) as usize];
    format!("{text}, {medium}")
}

fn number(bits: u64) -> String {
    let x = f64::from_bits(bits);
    match x.is_nan() {
        true => format!("NaN {bits:#x}"),
        false => format!("{x:?}"),
    }
}
