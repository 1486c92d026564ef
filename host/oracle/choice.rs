//! The reference of the C functions of the choice: the Rust's own functions, on rivals that are
//! read from words. It stands beside select.rs, and so sees what is open to its neighbours. The
//! refusals are the C functions' (5 length, 6 duration, 11, 12, 13, 16).

use super::live::Liveness;
use super::select::{self, Field, Hold, Rival};
use super::set::{Medium, PATH_MAX_PER_PEER};
use super::{Role, script::duration, script::length};
use crate::time::Duration;

/// Words of a rival, in the order of the C interface.
pub const WORDS: usize = 12;
/// Rivals in a field, and bytes of a rival, a field and a pair.
pub const PLACES: usize = PATH_MAX_PER_PEER;
pub const RIVAL: usize = 8 * WORDS;
pub const FIELD: usize = PLACES * RIVAL;
pub const PAIR: usize = 2 * RIVAL;
/// Bytes that `hess_best` writes.
pub const BEST: usize = 16;

/// A positive quiet NaN's bits.
pub const NAN: u64 = 0x7ff8_0000_0000_0000;

/// What becomes of a NaN's bits that are read.
#[derive(Clone, Copy, PartialEq, Eq)]
pub enum Nans {
    /// The one NaN, positive and quiet: so the C functions read them.
    One,
    /// They stay, with sign and payload: so the Rust would have them.
    Raw,
}

/// A value, or the refusal.
type Answer<T> = Result<T, u64>;

/// Number and value.
pub type Pair = (u64, u64);

fn pair(answer: Answer<u64>) -> Pair {
    answer.map_or_else(|no| (no, 0), |value| (0, value))
}

/// A float's bits, every NaN as one.
pub fn one_nan(bits: u64) -> u64 {
    if f64::from_bits(bits).is_nan() {
        NAN
    } else {
        bits
    }
}

fn float(bits: u64, nans: Nans) -> f64 {
    f64::from_bits(match nans {
        Nans::One => one_nan(bits),
        Nans::Raw => bits,
    })
}

fn flag(word: u64) -> bool {
    word % 2 == 1
}

fn medium(word: u64) -> Medium {
    match word % 4 {
        0 => Medium::Ble,
        1 => Medium::Wired,
        2 => Medium::Wireless,
        _ => Medium::Unknown,
    }
}

fn role(word: u64) -> Role {
    match word % 4 {
        0 => Role::Never,
        1 => Role::Backup,
        2 => Role::Normal,
        _ => Role::Preferred,
    }
}

/// The words of a rival from the bytes that begin with it.
pub fn words(bytes: &[u8]) -> [u64; WORDS] {
    core::array::from_fn(|n| super::script::word(bytes, n))
}

/// A rival from its 96 bytes, whether marked as held or not; 6 for a duration of 2^62 or more.
fn rival(bytes: &[u8], nans: Nans) -> Answer<Rival> {
    let w = words(bytes);
    let some = |n: usize| flag(w[n]).then_some(w[n + 1]);
    Ok(Rival {
        index: w[1] as usize,
        score: some(2).map(|bits| float(bits, nans)),
        rtt: some(4).map(duration).transpose()?,
        steady: some(6).map(|bits| float(bits, nans)),
        base: some(8).map(duration).transpose()?,
        tier: w[10] as u8,
        preferred: flag(w[11]),
        pinned: flag(w[11] >> 1),
        fits: flag(w[11] >> 2),
        medium: medium(w[11] >> 4),
    })
}

/// A field from its bytes: 13, then 6, then 12 for a rival whose index is not its place.
fn field(bytes: &[u8], nans: Nans) -> Answer<Field> {
    if bytes.len() != FIELD {
        return Err(13);
    }
    let mut field = [None; PLACES];
    for (place, bytes) in field.iter_mut().zip(bytes.chunks_exact(RIVAL)) {
        if flag(super::script::word(bytes, 0)) {
            *place = Some(rival(bytes, nans)?);
        }
    }
    let stray = |(n, r): (usize, &Option<Rival>)| r.is_some_and(|r| r.index != n);
    if field.iter().enumerate().any(stray) {
        return Err(12);
    }
    Ok(field)
}

/// The rivals `to` and `from`.
fn rivals(bytes: &[u8], nans: Nans) -> Answer<[Rival; 2]> {
    if bytes.len() != PAIR {
        return Err(13);
    }
    Ok([rival(&bytes[..RIVAL], nans)?, rival(&bytes[RIVAL..], nans)?])
}

/// `hess_choose`.
pub fn choose_of(bytes: &[u8], margin: f64, nans: Nans) -> Pair {
    let chosen =
        |field: Field| select::choose(&field, margin).map_or(Err(11), |place| Ok(place as u64));
    pair(field(bytes, nans).and_then(chosen))
}

/// `hess_best`: the refusal, or the two words that it writes.
pub fn best_of(bytes: &[u8], lent: usize, nans: Nans) -> Answer<[u64; 2]> {
    let best = select::best(&field(bytes, nans)?);
    if lent < BEST {
        return Err(16);
    }
    Ok(best.map_or([0, 0], |score| [1, one_nan(score.to_bits())]))
}

/// `hess_score`: numbers and bits of `score` and `steady` of a path with this ETX and one sample.
pub fn score_of(etx: f64, rtt: u64) -> [Pair; 2] {
    let Ok(rtt) = duration(rtt) else {
        return [(6, 0); 2];
    };
    let mut path = Liveness::with_etx(etx);
    path.sample(0, rtt, Duration(0), Duration(0));
    [select::score(&path), select::steady(&path)].map(|score| match score {
        Some(score) => (0, one_nan(score.to_bits())),
        None => panic!("a path with a sample has a score"),
    })
}

/// `hess_held`.
pub fn held_of(bytes: &[u8], margin: f64, nans: Nans) -> Pair {
    let held = |[to, from]: [Rival; 2]| u64::from(select::held(&to, &from, margin));
    pair(rivals(bytes, nans).map(held))
}

/// `hess_waits`.
pub fn waits_of(bytes: &[u8], margin: f64, nans: Nans) -> Pair {
    let waits = |[to, from]: [Rival; 2]| u64::from(select::waits(&to, &from, margin));
    pair(rivals(bytes, nans).map(waits))
}

/// `hess_hold`.
pub fn hold_of(at: u64, reports: u8, now: u64, dwell: u64) -> Pair {
    let mut hold = Hold::new(1.0, at);
    for _ in 0..reports {
        hold.report();
    }
    let held = |dwell| {
        let cost = hold.held(now, dwell);
        assert!(cost.is_none_or(|cost| cost == 1.0));
        u64::from(cost.is_some())
    };
    pair(duration(dwell).map(held))
}

/// `hess_tier`.
pub fn tier_of(word: u64) -> u64 {
    select::tier(role(word)).into()
}

/// `hess_quicker`.
pub fn quicker_of(a: u64, b: u64) -> bool {
    select::quicker(medium(a), medium(b))
}

/// `hess_carried`.
pub fn carried_of(link: u32, proven: Option<u32>, oriented: bool) -> Pair {
    let carried = || {
        let link = length(link.into())?;
        let proven = proven.map(|len| length(len.into())).transpose()?;
        Ok(select::carried(link, proven, oriented) as u64)
    };
    pair(carried())
}

/// A field that is read already, for the benchmark.
pub struct Prepared(Field);

impl Prepared {
    pub fn new(bytes: &[u8]) -> Option<Self> {
        field(bytes, Nans::One).ok().map(Self)
    }

    /// The Rust's `choose` and nothing else.
    pub fn choose(&self, margin: f64) -> Option<usize> {
        select::choose(&self.0, margin)
    }

    /// The size of the Rust's own field in bytes.
    pub fn bytes() -> usize {
        core::mem::size_of::<Field>()
    }
}
