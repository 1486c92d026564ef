//! The fields and pairs of the fixed list: of many from fixed seeds those that show something that
//! few before them showed, with the Rust's answers.

use crate::random::Rng;
use crate::rivals::{
    Case, FITS, HELD, INDEX, MARKS, MEDIUM, PINNED, PREFERRED, RTT, SCORE, SCORED, TIER, TIMED,
    field, pair,
};
use oracle::proto::path::choice::{
    BEST, Nans, Pair, best_of, choose_of, held_of, one_nan, quicker_of, waits_of,
};
use std::collections::BTreeMap;

/// How often each trait is wanted, and how many cases are looked through.
const WANTED: usize = 24;
const TRIED: usize = 300_000;
const SEED: u64 = 400;

/// Cases that are kept, and what they show.
pub struct Picked {
    pub fields: Vec<Case>,
    pub pairs: Vec<Case>,
    pub shown: BTreeMap<&'static str, usize>,
}

impl Picked {
    pub fn new() -> Self {
        let mut all = Self {
            fields: Vec::new(),
            pairs: Vec::new(),
            shown: BTreeMap::new(),
        };
        let mut rng = Rng::new(SEED);
        for _ in 0..TRIED {
            let case = field(&mut rng, true);
            if all.new_in(&field_traits(&case)) {
                all.fields.push(case);
            }
            let case = pair(&mut rng);
            if all.new_in(&pair_traits(&case)) {
                all.pairs.push(case);
            }
        }
        all
    }

    /// Whether one of the traits is still wanted; then all of them are counted.
    fn new_in(&mut self, traits: &[(&'static str, bool)]) -> bool {
        let has = || traits.iter().filter(|(_, on)| *on);
        for (name, _) in traits {
            self.shown.entry(name).or_default();
        }
        let wanted = has().any(|(name, _)| self.shown[name] < WANTED);
        if wanted {
            for (name, _) in has() {
                *self.shown.entry(name).or_default() += 1;
            }
        }
        wanted
    }

    /// Bytes of a field, its margin, number and value of `choose`, number of `best` and its words.
    pub fn field_record(case: &Case) -> Vec<u8> {
        let bytes = case.bytes();
        let (number, place) = choose_of(&bytes, case.margin(), Nans::One);
        let best = best_of(&bytes, BEST, Nans::One);
        let [some, bits] = best.unwrap_or([0, 0]);
        let words = [
            case.margin,
            number,
            place,
            best.err().unwrap_or(0),
            some,
            bits,
        ];
        record(bytes, &words)
    }

    /// Bytes of a pair, its margin, number and value of `held` and of `waits`.
    pub fn pair_record(case: &Case) -> Vec<u8> {
        let bytes = case.bytes();
        let held = held_of(&bytes, case.margin(), Nans::One);
        let waits = waits_of(&bytes, case.margin(), Nans::One);
        record(bytes, &[case.margin, held.0, held.1, waits.0, waits.1])
    }
}

fn record(mut bytes: Vec<u8>, words: &[u64]) -> Vec<u8> {
    bytes.extend(words.iter().flat_map(|w| w.to_le_bytes()));
    bytes
}

fn choose(case: &Case) -> Pair {
    choose_of(&case.bytes(), case.margin(), Nans::One)
}

/// The case with a change made to every rival.
fn changed(case: &Case, change: impl Fn(usize, &mut [u64; 12])) -> Case {
    let mut other = case.clone();
    let rivals = other.rivals.iter_mut().enumerate();
    rivals.for_each(|(place, rival)| change(place, rival));
    other
}

/// What a field's answers hang on, and what they refuse.
fn field_traits(case: &Case) -> Vec<(&'static str, bool)> {
    let (number, place) = choose(case);
    let flat = changed(case, |_, r| r[TIER] = 0);
    let placed = changed(case, |place, r| r[INDEX] = place as u64);
    let short = changed(case, |_, r| r[RTT] %= 1 << 62);
    let moved = |other: &Case| number == 0 && choose(other) != (0, place);
    let held: Vec<_> = case.rivals.iter().filter(|r| r[HELD] % 2 == 1).collect();
    let scored: Vec<_> = held.iter().filter(|r| r[SCORED] % 2 == 1).collect();
    let best = best_of(&case.bytes(), BEST, Nans::One);
    let least = best.map_or(f64::NAN, |[_, bits]| f64::from_bits(bits));
    let limit = (least * case.margin()).to_bits();
    let at = |bits: u64| scored.iter().any(|r| r[SCORE] == bits);
    let taken = (number == 0).then(|| &case.rivals[place as usize]);
    let near = |m: u64| {
        changed(case, |_, _| ()).margin != m
            && moved(&Case {
                margin: m,
                ..case.clone()
            })
    };
    let medium = |r: &[u64; 12]| r[MARKS] >> 4 & 3;
    let quicker = taken.is_some_and(|t| scored.iter().any(|r| quicker_of(medium(r), medium(t))));
    let ranked = best.is_ok_and(|[some, _]| some == 1);
    let ties = scored
        .iter()
        .filter(|r| r[SCORE] == least.to_bits())
        .count()
        > 1;
    vec![
        ("pinned", moved(&case.marked(PINNED, 0))),
        ("tier", moved(&flat)),
        (
            "tier 0 alone",
            number == 0 && held.iter().all(|r| r[TIER] % 256 == 0),
        ),
        ("fitting", moved(&case.marked(FITS, 0))),
        ("preferred", moved(&case.marked(PREFERRED, 0))),
        ("quicker medium", moved(&case.marked(0, MEDIUM))),
        ("quicker one is not near", ranked && quicker),
        (
            "unknown medium taken",
            taken.is_some_and(|t| medium(t) == 3) && scored.len() > 1,
        ),
        ("margin", near(1.0_f64.to_bits())),
        (
            "score at best × margin",
            ranked && at(limit) && limit != least.to_bits(),
        ),
        (
            "score one step past it",
            ranked && at(limit.wrapping_add(1)),
        ),
        (
            "score one step before it",
            ranked && at(limit.wrapping_sub(1)),
        ),
        ("equal scores", ranked && ties),
        ("no score", number == 0 && best == Ok([0, 0])),
        (
            "no score, RTTs",
            moved(&changed(case, |_, r| r[TIMED] = 0)) && best == Ok([0, 0]),
        ),
        (
            "no score, equal RTTs",
            number == 0 && best == Ok([0, 0]) && equal_times(&held),
        ),
        ("a NaN", case.has_nan(false) && number == 0),
        ("two zeros", at(0) && at(1 << 63)),
        (
            "infinite margin or score",
            case.margin().is_infinite() || at(f64::INFINITY.to_bits()),
        ),
        ("margin below 1", case.margin() < 1.0 && number == 0),
        ("one rival", held.len() == 1 && number == 0),
        ("eight rivals", held.len() == 8 && number == 0),
        ("6", number == 6),
        ("6 before 12", number == 6 && choose(&short).0 == 12),
        ("12", number == 12),
        ("11", number == 11),
        ("right once placed", number == 12 && choose(&placed).0 == 0),
    ]
}

/// Two rivals that are timed alike.
fn equal_times(held: &[&[u64; 12]]) -> bool {
    let timed: Vec<_> = held.iter().filter(|r| r[TIMED] % 2 == 1).collect();
    (1..timed.len()).any(|n| timed[..n].iter().any(|r| r[RTT] == timed[n][RTT]))
}

/// What a pair's answers hang on.
fn pair_traits(case: &Case) -> Vec<(&'static str, bool)> {
    let ask = |case: &Case| {
        let (bytes, margin) = (case.bytes(), case.margin());
        (
            held_of(&bytes, margin, Nans::One),
            waits_of(&bytes, margin, Nans::One),
        )
    };
    let (held, waits) = ask(case);
    let other = |change: fn(&mut [u64; 12])| ask(&changed(case, |_, r| change(r)));
    let held_hangs = |change: fn(&mut [u64; 12])| held.0 == 0 && other(change).0 != held;
    let waits_hangs = |change: fn(&mut [u64; 12])| waits.0 == 0 && other(change).1 != waits;
    let nan = |n: usize| {
        case.rivals
            .iter()
            .any(|r| r[n - 1] % 2 == 1 && one_nan(r[n]) != r[n])
    };
    vec![
        ("held", held == (0, 1)),
        ("not held", held == (0, 0)),
        ("held by medium", held_hangs(|r| r[MARKS] |= MEDIUM)),
        ("held by base RTT", held_hangs(|r| r[8] = 0)),
        ("held by score", held_hangs(|r| r[SCORED] = 0)),
        ("held by steady score", held_hangs(|r| r[6] = 0)),
        ("waits", waits == (0, 1)),
        ("does not wait", waits == (0, 0)),
        ("waits by score", waits_hangs(|r| r[SCORED] = 0)),
        ("waits by steady score", waits_hangs(|r| r[6] = 0)),
        ("pair: 6", held.0 == 6),
        ("pair: a NaN", nan(SCORE) || nan(7)),
        ("pair: margin below 1", case.margin() < 1.0 && held.0 == 0),
    ]
}
