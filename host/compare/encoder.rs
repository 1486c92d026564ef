//! The words of the Rust's record, by crates/rows/specs/{Places,Encode}.antt and crates/cells/specs/Code.antt;
//! and any words as the encoder would have them, by crates/rows/specs/View.antt and crates/cells/specs/Cells.antt.

use crate::kept::{Kept, ROWS, SlotRows};
use oracle::proto::path::record::{Record, SLOTS};

/// The row of each thing, or the first of its rows; before them stand the eight of the ring and the four of the late
/// list.
pub const IDS: usize = 12;
pub const CLOCKS: usize = 13;
pub const STOP: usize = 14;
pub const TRIPS: usize = 15;
pub const SEARCH: usize = 16;
pub const ARRIVALS: usize = 17;
pub const MARKS: usize = 18;
pub const SAMPLES: usize = 19;
pub const SPANS: usize = 35;

/// What is added to a length while its place is used: to a probe's, and to the full size.
pub const USED: u64 = 65_536;
/// What is added to the last size of a ladder that fell.
pub const FELL: u64 = 131_072;
/// What an open's flags, which have so many values, are multiplied by in the label's word.
pub const FLAG: u64 = 131_072;
const FLAGS: u64 = 128;
/// The one NaN.
const NAN: u64 = 0x7ff8_0000_0000_0000;

/// Takes an image's words from its front.
struct Words<'a>(&'a [u64]);

impl Words<'_> {
    fn take<const N: usize>(&mut self) -> [u64; N] {
        let (now, later) = self.0.split_at(N);
        self.0 = later;
        now.try_into().expect("as many words")
    }

    /// A mark and a number, as one word with 1 added, or 0.
    fn one(&mut self) -> u64 {
        let [there, x] = self.take();
        there * (x + 1)
    }

    /// A probe's row.
    fn sent(&mut self) -> [u64; 4] {
        let [used, id, at, due, len] = self.take();
        [at, due, id, len + used * USED]
    }
}

/// The words of all slots, and of the settings.
pub fn encoded(record: &Record) -> Kept {
    Kept {
        settings: record.settings(),
        slots: core::array::from_fn(|slot| slot_rows(record, slot)),
    }
}

/// The 43 rows of a slot.
pub fn slot_rows(record: &Record, slot: usize) -> SlotRows {
    let mut rows = [[0; 4]; ROWS];
    let (Some(image), Some([full, flags])) = (record.image(slot), record.label(slot)) else {
        rows[TRIPS][1] = 1f64.to_bits();
        return rows;
    };
    let mut w = Words(&image);
    rows[..IDS].fill_with(|| w.sent());
    rows[IDS].fill_with(|| w.one());
    let [quiet, since] = w.take();
    let [stopped, free, gap, used, until, end, owed] = w.take();
    let [misses] = w.take();
    let last = w.one();
    let [fallen] = w.take();
    let proven = w.one();
    let [sought, at, id, len, lost] = w.take();
    let [frames, bytes] = w.take();
    rows[CLOCKS] = [quiet, since, sought, at];
    rows[STOP] = [stopped + owed + 2 * until, free, gap, used];
    rows[SEARCH] = [id + (len << 32), lost, proven, last + fallen * FELL];
    rows[ARRIVALS] = w.take();
    let [timed, rtt] = w.take();
    let mut bits = 0;
    for n in 0..32 {
        let [used, at, rtt] = w.take();
        bits |= used << n;
        rows[SAMPLES + n / 2][n % 2 * 2..][..2].copy_from_slice(&[at, rtt]);
    }
    for row in &mut rows[SPANS..] {
        let [used, from, to, rtt] = w.take();
        *row = [from, to, rtt, used];
    }
    let [etx] = w.take();
    rows[TRIPS] = [end, etx, timed, rtt];
    let label = full + USED + flags * FLAG;
    rows[MARKS] = [frames + (bytes << 32), bits, label, misses];
    rows
}

/// A mark as the encoder has it.
fn mark(x: u64) -> u64 {
    u64::from(x != 0)
}

/// An optional number of so many values, 1 added.
fn some(x: u64, values: u64) -> u64 {
    mark(x) * (x.wrapping_sub(1) % values + 1)
}

/// The limit, for a word that reaches it.
fn above(x: u64, limit: u64) -> u64 {
    u64::from(x >= limit) * limit
}

/// Two marks, each before its instant, which is 0 without it.
fn times([a, s, b, t]: [u64; 4]) -> [u64; 4] {
    [mark(a), mark(a) * s, mark(b), mark(b) * t]
}

/// What any words say, in the encoder's words.
pub fn normal(kept: &Kept) -> Kept {
    let mut made = kept.clone();
    for slot in 0..SLOTS {
        made.slots[slot] = normal_rows(&kept.slots[slot]);
    }
    made
}

/// The same of a slot. The samples' instants and round trips are as they are.
pub fn normal_rows(from: &SlotRows) -> SlotRows {
    let mut rows = *from;
    for row in &mut rows[..IDS] {
        let [at, due, id, len] = *row;
        *row = [at, due, id % (1 << 32), len % USED + above(len, USED)];
    }
    rows[IDS] = from[IDS].map(|x| some(x, 1 << 32));
    rows[CLOCKS] = times(from[CLOCKS]);
    let [stopped, free, gap, used] = from[STOP];
    let until = u64::from(stopped > 2);
    rows[STOP] = match stopped {
        0 => [0; 4],
        _ => [2 - stopped % 2 + 2 * until, free, gap, used],
    };
    rows[TRIPS] = times(from[TRIPS]);
    rows[TRIPS][0] = until * from[TRIPS][0];
    rows[TRIPS][1] = match f64::from_bits(from[TRIPS][1]).is_nan() {
        true => NAN,
        false => from[TRIPS][1],
    };
    let [sent, lost, proven, last] = from[SEARCH];
    let ladder = some(last % FELL, USED) + above(last, FELL);
    rows[SEARCH] = [sent % (1 << 48), lost % USED, some(proven, USED), ladder];
    rows[ARRIVALS] = times(from[ARRIVALS]);
    let [counts, bits, label, misses] = from[MARKS];
    rows[MARKS] = [
        counts,
        bits % (1 << 32),
        label % (FLAGS * FLAG),
        misses % (1 << 32),
    ];
    for row in &mut rows[SPANS..] {
        row[3] = mark(row[3]);
    }
    rows
}
