//! Settings as a caller hands them in with an event: one to four of them at the limit, for a whole list or changed on
//! its way; and how many events got 6 for a setting.

use crate::events::{ANSWER, JUDGE, POLL, SAMPLE};
use crate::random::Rng;
use oracle::proto::path::record::Event;

/// The first duration that is too long.
const END: u64 = 1 << 62;
/// The limit, its neighbours, and the largest number.
const LIMITS: [u64; 4] = [END - 1, END, END + 1, u64::MAX];

/// The settings of a list on its way.
pub struct Handed {
    rng: Rng,
    own: [u64; 4],
    now: [u64; 4],
    changes: bool,
}

impl Handed {
    /// Of every two lists one changes them between its events.
    pub fn new(mut rng: Rng, own: [u64; 4]) -> Self {
        let changes = rng.percent(50);
        let now = limited(&mut rng, own);
        Self {
            rng,
            own,
            now,
            changes,
        }
    }

    /// Those of the next event: as before, others at the limit, or the list's own.
    pub fn next(&mut self) -> [u64; 4] {
        if self.changes && self.rng.percent(30) {
            self.now = match self.rng.below(3) {
                0 => self.own,
                _ => limited(&mut self.rng, self.own),
            };
        }
        self.now
    }
}

/// One to four settings at the limit, the others as they are.
fn limited(rng: &mut Rng, mut settings: [u64; 4]) -> [u64; 4] {
    for _ in 0..1 + rng.below(4) {
        settings[rng.below(4) as usize] = rng.pick(&LIMITS);
    }
    settings
}

/// Which setting an event got 6 for.
const NAMES: [&str; 5] = [
    "poll, cap",
    "answer, gap",
    "judge, gap",
    "sample, window",
    "sample, horizon",
];
/// How an event came.
const WAYS: [&str; 3] = ["numbers", "bytes", "words"];

/// Events that got 6 for one setting alone, by kind and setting and by how they came.
#[derive(Default)]
pub struct Sixes([[u64; 3]; 5]);

impl Sixes {
    pub fn add(&mut self, other: &Self) {
        let counts = self.0.as_flattened_mut().iter_mut();
        for (count, more) in counts.zip(other.0.as_flattened()) {
            *count += more;
        }
    }

    /// Count a refusal, if it is one for a setting: with these settings, and as the event came.
    pub fn count(&mut self, number: u64, e: &Event, settings: [u64; 4], way: usize) {
        let [_, _, window, horizon] = settings.map(|d| d >= END);
        let place = match e.kind {
            POLL => 0,
            ANSWER => 1,
            JUDGE if e.span < END => 2,
            SAMPLE if e.span < END && !horizon => 3,
            SAMPLE if e.span < END && !window => 4,
            _ => return,
        };
        self.0[place][way] += u64::from(number == 6);
    }

    /// Say how many there were; none of a kind ends the program.
    pub fn print(&self) {
        for (name, counts) in NAMES.iter().zip(self.0) {
            let said: Vec<_> = WAYS
                .iter()
                .zip(counts)
                .map(|(w, n)| format!("{n} by {w}"))
                .collect();
            println!("  6 for a setting, {name}: {}", said.join(", "));
            if counts.contains(&0) {
                println!("rows: {name}: no such 6");
                std::process::exit(1);
            }
        }
    }
}
