//! The reference of `hess_script`: a script of calls on one `Liveness`, run by the Rust's own
//! methods. The refusals are the C functions' (5 length, 6 duration, 8, 9, 10, 13, 15, 16).

use super::choice::one_nan;
use super::live::{Answer, Liveness, Sent};
use super::select;
use crate::time::{Duration, deadline};

/// Words of a call and of its answer.
pub const WORDS: usize = 6;
/// Bytes of a call and of its answer.
pub const CALL: usize = 8 * WORDS;
/// Words and bytes of an image.
pub const IMAGE_WORDS: usize = 225;
pub const IMAGE: usize = 8 * IMAGE_WORDS;

/// op, a, b, c, d, e.
pub type Call = [u64; WORDS];
/// number, v0 to v4.
pub type Reply = [u64; WORDS];
pub type Image = [u64; IMAGE_WORDS];

/// A call's values, or its refusal.
type Values = Result<[u64; 5], u64>;

const NOTHING: Values = Ok([0; 5]);

fn one(value: u64) -> Values {
    Ok([value, 0, 0, 0, 0])
}

fn some(value: Option<u64>) -> Values {
    Ok([value.is_some() as u64, value.unwrap_or(0), 0, 0, 0])
}

/// A length: a u32, 5 above 65,535.
pub(super) fn length(word: u64) -> Result<usize, u64> {
    match word as u32 {
        len if len > 65_535 => Err(5),
        len => Ok(len as usize),
    }
}

/// A full or proved length: 5 below 27 too.
pub(super) fn whole(word: u64) -> Result<usize, u64> {
    length(word).and_then(|len| if len < 27 { Err(5) } else { Ok(len) })
}

/// A duration: 6 from 2^62 on.
pub(super) fn duration(word: u64) -> Result<Duration, u64> {
    if word >= 1 << 62 {
        Err(6)
    } else {
        Ok(Duration(word))
    }
}

fn flag(word: u64) -> bool {
    word % 2 == 1
}

/// A float's bits, every NaN as one.
pub(super) fn bits(x: f64) -> u64 {
    one_nan(x.to_bits())
}

/// One path, and the calls that a script can make on it.
#[derive(Clone)]
pub struct Path {
    live: Liveness<u64>,
}

impl Path {
    pub fn new() -> Self {
        Self {
            live: Liveness::new(),
        }
    }

    pub fn image(&self) -> Image {
        self.live.image()
    }

    /// Make one call; a refused one leaves the path as it came.
    pub fn call(&mut self, call: Call) -> Reply {
        match self.values(call) {
            Ok([v0, v1, v2, v3, v4]) => [0, v0, v1, v2, v3, v4],
            Err(number) => [number, 0, 0, 0, 0, 0],
        }
    }

    fn values(&mut self, [op, a, b, c, d, e]: Call) -> Values {
        let live = &mut self.live;
        match op {
            0 => *live = Liveness::new(),
            1 => return one(live.take_id(|| a as u32).into()),
            // The Rust's path is always changed through a reference: 49 and 50 are 2 and 3.
            2 | 49 => {
                let sent = live.send(a, b, length(c)?, || d as u32);
                return one(sent.ok_or(8u64)?.into());
            }
            3 | 50 => return self.answer(a as u32),
            4 => {
                let lapse = live.expire(a, flag(b), duration(c)?);
                return one(lapse.map_or(0, |counted| if counted { 1 } else { 2 }));
            }
            5 => live.lapse(Sent {
                probe_id: a as u32,
                at: b,
                due: c,
                len: usize::from(d as u16),
            }),
            6 => return one(live.room(a as usize).into()),
            7 => live.fresh(),
            8 => live.thaw(),
            9 => live.clear(),
            10 => return one(live.size(whole(a)?) as u64),
            11 => live.sample(a, duration(b)?, duration(c)?, duration(d)?),
            12 => live.fold(flag(a)),
            13 => return one(live.prove(whole(a)?).into()),
            14 => return one(live.seek_size(whole(a)?, b).ok_or(10u64)? as u64),
            15 => return one(live.seek_send(a, length(b)?, || c as u32).into()),
            16 => {
                let (len, gap) = (length(d)?, duration(c)?);
                let sent = live.seek_ring(a, b, gap, len, || e as u32);
                return one(sent.ok_or(8u64)?.into());
            }
            17 => {
                let len = live.seek_answer(a as u32, duration(b)?);
                return one(len.ok_or(9u64)? as u64);
            }
            18 => return one(live.seek_proved(length(a)?, length(b)?, c).into()),
            19 => {
                let out = live.seeking();
                live.seek_judge(a, duration(b)?, duration(c)?);
                return one((out && !live.seeking()).into());
            }
            20 => live.halt(a, flag(b)),
            21 => live.spend(a),
            22 => live.owe(),
            23 => live.rebase(a, flag(b)),
            24 => return one(live.timeout(duration(a)?, duration(b)?).0),
            25 => live.heard(length(a)?, b),
            26 => live.carried(a),
            27 => live.shed(length(a)?),
            28 => return one(live.stopped().into()),
            29 => return some(live.held()),
            30 => return some(live.recheck().map(|d| d.0)),
            31 => return one(live.outstanding() as u64),
            32 => return one(live.samples() as u64),
            33 => return some(live.min_rtt().map(|d| d.0)),
            34 => return some(live.max_rtt().map(|d| d.0)),
            35 => return some(live.base_rtt().map(|d| d.0)),
            36 => return some(live.earliest_due()),
            37 => return some(select::score(live).map(bits)),
            38 => return some(select::steady(live).map(bits)),
            39 => return one(live.misses().into()),
            40 => return some(live.rtt().map(|d| d.0)),
            41 => return one(bits(live.etx())),
            42 => return some(live.mtu().map(|len| len as u64)),
            43 => return one(live.frames().into()),
            44 => return one(live.bytes().into()),
            45 => return some(live.heard_at()),
            46 => return some(live.data_at()),
            47 => return some(live.quiet()),
            48 => {
                let answer = live.answer(a as u32).ok_or(9u64)?;
                return one(answer.matching().into());
            }
            _ => return Err(15),
        }
        NOTHING
    }

    fn answer(&mut self, id: u32) -> Values {
        let (how, s) = match self.live.answer(id).ok_or(9u64)? {
            Answer::InTime(s) => (1, s),
            Answer::Late(s) => (2, s),
        };
        Ok([how, s.probe_id.into(), s.at, s.due, s.len as u64])
    }
}

/// The `n`th word of some bytes, little-endian.
pub fn word(bytes: &[u8], n: usize) -> u64 {
    u64::from_le_bytes(bytes[8 * n..8 * n + 8].try_into().expect("eight bytes"))
}

/// Write words into the bytes that stand there for them.
fn store(words: &[u64], bytes: &mut [u8]) {
    for (word, place) in words.iter().zip(bytes.chunks_exact_mut(8)) {
        place.copy_from_slice(&word.to_le_bytes());
    }
}

/// `hess_script`.
pub fn run(script: &[u8], out: &mut [u8]) -> u64 {
    if script.len() % CALL != 0 {
        return 13;
    }
    if out.len() < script.len() + IMAGE {
        return 16;
    }
    let mut path = Path::new();
    for (call, place) in script.chunks_exact(CALL).zip(out.chunks_exact_mut(CALL)) {
        let call = core::array::from_fn(|n| word(call, n));
        store(&path.call(call), place);
    }
    store(&path.image(), &mut out[script.len()..script.len() + IMAGE]);
    0
}

/// `hess_deadline`: number and value.
pub fn deadline_of(t: u64, d: u64) -> (u64, u64) {
    duration(d).map_or_else(|no| (no, 0), |d| (0, deadline(t, d)))
}

/// `hess_seconds`: number and the value's bits.
pub fn seconds_of(ns: u64) -> (u64, u64) {
    duration(ns).map_or_else(|no| (no, 0), |d| (0, d.as_secs_f64().to_bits()))
}

/// `hess_size`: number and value.
pub fn size_of(full: u32, fallen: bool, held: bool, last: u32) -> (u64, u64) {
    let size = || {
        let (full, last) = (whole(full.into())?, length(last.into())?);
        let path = Liveness::with_ladder(fallen, held.then_some(last));
        Ok(path.size(full) as u64)
    };
    size().map_or_else(|no| (no, 0), |len| (0, len))
}

/// `hess_timeout`: number and value.
pub fn timeout_of(floor: u64, cap: u64, last: Option<u64>, largest: Option<u64>) -> (u64, u64) {
    let timeout = || {
        let (floor, cap) = (duration(floor)?, duration(cap)?);
        let path = Liveness::with_rtts(last.map(Duration), largest.map(Duration));
        Ok(path.timeout(floor, cap).0)
    };
    timeout().map_or_else(|no| (no, 0), |d| (0, d))
}

/// `hess_fold`.
pub fn fold_of(etx: f64, delivered: bool) -> f64 {
    let mut path = Liveness::with_etx(etx);
    path.fold(delivered);
    path.etx()
}

/// `hess_after`.
pub fn after_of(a: u32, b: u32) -> bool {
    Liveness::<u64>::comes_after(a, b)
}

/// The size of the Rust's own path in bytes.
pub fn path_bytes() -> usize {
    core::mem::size_of::<Liveness<u64>>()
}
