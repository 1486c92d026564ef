//! Words that no record wrote: for each word of a slot values that tell something of how it is read, and bits that are
//! not read; events aimed at them; and what the events came to.

use crate::encoder::{
    ARRIVALS, CLOCKS, FELL, FLAG, IDS, MARKS, SEARCH, SPANS, STOP, TRIPS, USED, encoded,
};
use crate::events::{List, PROBE};
use crate::kept::{Kept, ROWS};
use crate::random::Rng;
use oracle::proto::path::record::{Event, Record, SLOTS};

/// Words, in a hundred, that are made strange, from few to all; of the label's at least so many, and with so many of
/// those the slot holds a path.
const SHARES: [u64; 5] = [2, 10, 30, 60, 100];
const LABELS: u64 = 60;
const OPEN: [u64; 5] = [0, 50, 90, 90, 100];
/// Words, in a hundred, whose bits that are not read become any; and settings that become any.
const UNREAD: u64 = 50;
const SETTINGS: u64 = 4;
/// Events, in a hundred, with another slot, an identifier of the slot's, an instant beside one of its words.
const MOVED: u64 = 20;
const NAMED: u64 = 40;
const TIMED: u64 = 30;
/// Probes among these, in a hundred, that are due beside it too.
const DUE: u64 = 60;
/// Numbers beside which identifiers are taken.
const NAMES: [u64; 5] = [0, 7, 1_000_000, 1 << 31, (1 << 32) - 1];

/// Strange words for what comes after the first events of a list, and how many these are.
pub fn words(list: &List, rng: &mut Rng) -> (Kept, usize) {
    let mut record = Record::new(list.settings).expect("allowed settings");
    let first = rng.below(list.events.len() as u64 / 2 + 1) as usize;
    for event in &list.events[..first] {
        record.event(event);
    }
    let mut kept = encoded(&record);
    let (share, open) = (rng.pick(&SHARES), rng.pick(&OPEN));
    for x in &mut kept.settings {
        if rng.percent(SETTINGS) {
            *x = rng.wide();
        }
    }
    for place in 0..SLOTS * ROWS * 4 {
        let (row, k) = (place / 4 % ROWS, place % 4);
        let x = &mut kept.slots[place / 4 / ROWS][row][k];
        let label = (row, k) == (MARKS, 2);
        if rng.percent(if label { share.max(LABELS) } else { share }) {
            *x = telling(rng, row, k);
        }
        if label && rng.percent(LABELS) {
            *x = *x / FLAG * FLAG + *x % USED + u64::from(rng.percent(open)) * USED;
        }
        if rng.percent(UNREAD) {
            *x = other(rng, row, k, *x);
        }
    }
    (kept, first)
}

/// A value for a word of a slot, by its place.
fn telling(rng: &mut Rng, row: usize, k: usize) -> u64 {
    match (row, k) {
        (..IDS, 2) => name(rng),
        (..IDS, 3) => turn(rng, USED),
        (IDS, _) => rng.below(4).min(1) * (name(rng) + 1),
        (CLOCKS | ARRIVALS, 0 | 2) | (TRIPS, 2) | (SPANS.., 3) => rng.below(3),
        (STOP, 0) => rng.below(7),
        (TRIPS, 1) => rng.pick(&[1.0f64, 1.5, 100.0, -1.0, f64::NAN]).to_bits(),
        (SEARCH, 0) => name(rng) | length(rng) << 32,
        (SEARCH, 1 | 2) => length(rng) + rng.below(2),
        (SEARCH, 3) => turn(rng, FELL / 2),
        (MARKS, 0) => name(rng) | name(rng) << 32,
        (MARKS, 1) => bits(rng),
        (MARKS, 2) => length(rng) | rng.below(8).min(1) * USED | rng.below(128) * FLAG,
        (MARKS, 3) => name(rng),
        _ => rng.wide(),
    }
}

/// The word with other bits where none is read, or for a 0 that may stand behind a mark; if it has such.
fn other(rng: &mut Rng, row: usize, k: usize, x: u64) -> u64 {
    let any = rng.next() >> rng.below(64);
    match (row, k) {
        (..IDS, 2) | (MARKS, 1 | 3) => x | any << 32,
        (..IDS, 3) if x >= USED => x | any << 16,
        (IDS, _) if x != 0 => x.wrapping_add(any << 32),
        (CLOCKS | ARRIVALS, 0 | 2) | (TRIPS, 2) | (SPANS.., 3) if x != 0 => x | any,
        (CLOCKS | ARRIVALS, n) if n % 2 == 1 && x == 0 => any,
        (TRIPS, 1) if f64::from_bits(x).is_nan() => x | any,
        (STOP, 0) if x > 2 => x | any << 1,
        (STOP, 1..) | (TRIPS, 0) if x == 0 => any,
        (SEARCH, 0) => x | any << 48,
        (SEARCH, 1) => x | any << 16,
        (SEARCH, 2) if x != 0 => x.wrapping_add(any << 16),
        (SEARCH, 3) if x >= FELL => x | any << 17,
        (MARKS, 2) => x | any << 24,
        _ => x,
    }
}

/// An identifier, or another number of 32 bits.
fn name(rng: &mut Rng) -> u64 {
    let x = rng.pick(&NAMES);
    match rng.below(4) {
        0 => rng.next() >> 32,
        _ => rng.near(x) % (1 << 32),
    }
}

/// A length.
fn length(rng: &mut Rng) -> u64 {
    let x = rng.pick(&[27, 60, 132, 1_200, USED]);
    rng.near(x) % USED
}

/// A length, or one of the numbers beside so many times the limit.
fn turn(rng: &mut Rng, limit: u64) -> u64 {
    let times = rng.below(6) * limit;
    match rng.below(3) {
        0 => rng.near(times),
        _ => times + length(rng),
    }
}

/// Which samples are used: none, all, one, any; the bit above them.
fn bits(rng: &mut Rng) -> u64 {
    match rng.below(6) {
        0 => 0,
        1 => u32::MAX.into(),
        2 => 1 << rng.below(33),
        3 => u64::from(u32::MAX) ^ 1 << rng.below(33),
        4 => rng.next() & rng.next() & rng.next(),
        _ => rng.next(),
    }
}

/// The event, or one aimed at what the words say.
pub fn aimed(mut event: Event, kept: &Kept, rng: &mut Rng) -> Event {
    if rng.percent(MOVED) {
        event.slot = rng.below(9) as u8;
    }
    let Some(rows) = kept.slots.get(usize::from(event.slot)) else {
        return event;
    };
    if rng.percent(NAMED) {
        event.id = match rng.below(4) {
            0 => rows[SEARCH][0] as u32,
            _ => rows[rng.below(IDS as u64) as usize][2] as u32,
        };
    }
    if rng.percent(TIMED) {
        let row = rng.below(ROWS as u64) as usize;
        let k = rng.below(4) as usize;
        event.now = rng.near(rows[row][k]);
        // A probe there is due beside it, or wherever it was: with most words that is before it.
        if event.kind == PROBE && rng.percent(DUE) {
            event.span = rng.near(event.now);
        }
    }
    event
}

/// Calls on such words: accepted ones by kind, refused ones by number; and how many of the accepted found words in
/// their slot that the encoder would not write.
#[derive(Default)]
pub struct Reached {
    kinds: [u64; 16],
    numbers: [u64; 24],
    uncoded: u64,
}

impl Reached {
    pub fn add(&mut self, other: &Self) {
        let more = other.kinds.iter().chain(&other.numbers);
        for (count, more) in self.kinds.iter_mut().chain(&mut self.numbers).zip(more) {
            *count += more;
        }
        self.uncoded += other.uncoded;
    }

    pub fn count(&mut self, kind: u8, number: u64, coded: bool) {
        match number {
            0 => self.kinds[usize::from(kind)] += 1,
            _ => self.numbers[number as usize] += 1,
        }
        self.uncoded += u64::from(number == 0 && !coded);
    }

    pub fn calls(&self) -> u64 {
        self.kinds.iter().chain(&self.numbers).sum()
    }

    /// Say what they are; no accepted event of a kind, or none of refusals 1 to 11 and 23, ends the program.
    pub fn print(&self) {
        let (kinds, numbers) = (&self.kinds[1..], &self.numbers[1..12]);
        println!("  on words that no record wrote: accepted, by kind from 1 on: {kinds:?}");
        println!(
            "  of them with words in their slot that the encoder would not write: {}",
            self.uncoded
        );
        println!(
            "  refused, by number from 1 on: {numbers:?}, {} with 15 and {} with 23",
            self.numbers[15], self.numbers[23]
        );
        if kinds.contains(&0) || numbers.contains(&0) || self.numbers[23] == 0 {
            println!("rows: a kind or a refusal that no call on strange words came to");
            std::process::exit(1);
        }
    }
}
