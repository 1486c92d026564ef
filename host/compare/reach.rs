//! What lists of events reach: counts of what happened to the paths' images, so that a reader sees
//! that the lists are not empty of it.

use crate::calls::{DATA, IDS, LATE, RING, SAMPLES, SEEK, SPANS};
use crate::events::{ANSWER, CHOOSE, HEAR, JUDGE, POLL, PROBE, SAMPLE, SEARCH, SWEEP};
use oracle::proto::path::record::{Event, Mark, Record, Reply, SLOTS};
use oracle::proto::path::script::Image;
use std::collections::BTreeMap;

/// Counts by what they count.
#[derive(Default)]
pub struct Reach {
    lists: usize,
    long: usize,
    events: usize,
    /// Accepted and refused, by kind; refusals by number.
    kinds: BTreeMap<u8, (u64, u64)>,
    numbers: BTreeMap<u64, u64>,
    seen: BTreeMap<&'static str, u64>,
    /// The instant of this list's event before, and the next tries that clearings set, by slot.
    now: u64,
    tries: [Option<u64>; SLOTS],
    /// The last identifier's mark and the next one, by slot, before probes that just got 23.
    behind: [Option<[u64; 2]>; SLOTS],
}

/// Images before and after an event on its slot.
struct Change {
    before: Image,
    after: Image,
}

/// The places of the ring or the late list that are used, by identifier and due.
fn held(image: &Image, from: usize, to: usize) -> Vec<(u64, u64)> {
    let used = (from..to).step_by(5).filter(|&at| image[at] == 1);
    used.map(|at| (image[at + 1], image[at + 3])).collect()
}

/// How many marked places there are.
fn marked(image: &Image, from: usize, to: usize, width: usize) -> usize {
    (from..to)
        .step_by(width)
        .filter(|&at| image[at] == 1)
        .count()
}

/// A free place of the late list behind a used one.
fn holed(image: &Image) -> bool {
    let first = (LATE..IDS).step_by(5).position(|at| image[at] == 1);
    let used = marked(image, LATE, IDS, 5);
    first.is_some_and(|first| first + used < 4)
}

impl Reach {
    /// Count a list.
    pub fn list(&mut self, events: usize) {
        self.lists += 1;
        self.tries = [None; SLOTS];
        self.behind = [None; SLOTS];
        self.long += usize::from(events >= 60);
        self.events += events;
    }

    /// Count an event.
    pub fn event(&mut self, e: &Event, reply: Reply, before: &Record, after: &Record) {
        let (accepted, refused) = self.kinds.entry(e.kind).or_default();
        match reply.0 {
            0 => *accepted += 1,
            _ => *refused += 1,
        }
        *self.numbers.entry(reply.0).or_default() += 1;
        let slot = usize::from(e.slot);
        if e.kind == CHOOSE && reply.0 == 0 {
            self.choice(e, reply, before);
        }
        if slot >= SLOTS {
            return;
        }
        self.clock(e);
        if let (Some(before), Some(after)) = (before.image(slot), after.image(slot)) {
            let change = Change { before, after };
            self.due(e, reply, &change.before);
            if reply.0 == 0 {
                self.path(e, reply, &change);
            }
            self.refused(e, reply, &change);
        } else {
            self.behind[slot] = None;
        }
    }

    /// Where the clock stands, of the kinds that have one.
    fn clock(&mut self, e: &Event) {
        if matches!(e.kind, 2..=5 | 8..=10) {
            self.see("clock that went back", e.now < self.now);
            self.see("clock below 100", e.now < 100);
            self.see("clock from 2^64 - 100 on", e.now >= u64::MAX - 99);
            self.now = e.now;
        }
    }

    /// The counts of two threads together.
    #[allow(dead_code)]
    pub fn add(&mut self, other: Self) {
        self.lists += other.lists;
        self.long += other.long;
        self.events += other.events;
        for (kind, (accepted, refused)) in other.kinds {
            let counts = self.kinds.entry(kind).or_default();
            *counts = (counts.0 + accepted, counts.1 + refused);
        }
        for (number, count) in other.numbers {
            *self.numbers.entry(number).or_default() += count;
        }
        for (what, count) in other.seen {
            *self.seen.entry(what).or_default() += count;
        }
    }

    /// What was never reached: kinds, refusals 1 to 11 and 23, and what is counted by name.
    pub fn missing(&self) -> Vec<String> {
        let kind = |kind: &u8| self.kinds.get(kind).is_none_or(|counts| counts.0 == 0);
        let number = |number: &u64| !self.numbers.contains_key(number);
        let kinds = (1..=15).filter(kind).map(|kind| format!("kind {kind}"));
        let numbers = (0..=11).chain([23]).filter(number);
        let numbers = numbers.map(|n| format!("number {n}"));
        kinds.chain(numbers).chain(self.unseen()).collect()
    }

    /// What is counted by name and was never seen.
    pub fn unseen(&self) -> impl Iterator<Item = String> {
        let seen = self.seen.iter().filter(|(_, count)| **count == 0);
        seen.map(|(what, _)| what.to_string())
    }

    fn see(&mut self, what: &'static str, on: bool) {
        *self.seen.entry(what).or_default() += u64::from(on);
    }

    /// What a probe on an open path shows of its due instant. One that is too long as well no file can hold:
    /// of lists that have none, that is not counted.
    pub fn due(&mut self, e: &Event, (number, value): Reply, before: &Image) {
        let slot = usize::from(e.slot);
        let behind = self.behind[slot].take();
        if e.kind != PROBE {
            return;
        }
        if number == 23 {
            self.behind[slot] = behind.or(Some([before[IDS], before[IDS + 1]]));
        }
        let eight = marked(before, RING, LATE, 5) == 8;
        let early = e.span < e.now;
        if e.len > 65_535 {
            return self.see(
                "probe due before its now, over-long too",
                early && number == 5,
            );
        }
        self.see("probe due before its now", number == 23 && !eight);
        self.see(
            "probe due before its now, with eight waiting",
            number == 23 && eight,
        );
        self.see(
            "probe due one before its now",
            number == 23 && e.span.checked_add(1) == Some(e.now),
        );
        self.see("probe with a now and no due", number == 23 && e.span == 0);
        self.see("probe due at its now", number == 0 && e.span == e.now);
        let next = behind.map(|[mark, next]| if mark == 1 { next } else { e.id.into() });
        self.see(
            "probe after one refused with 23, which took no identifier",
            number == 0 && next == Some(value),
        );
    }

    /// What an accepted event did to its path.
    fn path(&mut self, e: &Event, (_, value): Reply, c: &Change) {
        let (i, j) = (&c.before, &c.after);
        let ring = held(j, RING, LATE);
        self.see("eight waiting", ring.len() == 8);
        self.see(
            "identifier 0 after 2^32 - 1",
            i[IDS + 1] == u32::MAX.into() && j[IDS + 1] == 0,
        );
        self.see("`since` held", j[IDS + 6] == 1);
        self.see("epoch held", j[IDS + 4] == 1);
        if matches!(e.kind, ANSWER | JUDGE) && value % 2 == 1 && j[SEEK + 3..SEEK + 5] == [0, 0] {
            self.tries[usize::from(e.slot)] = (i[SEEK + 3] != 0).then_some(j[SEEK + 1]);
        }
        match e.kind {
            ANSWER => self.answer(value, c),
            POLL => {
                let before = held(i, RING, LATE);
                let moved = |p: &&(u64, u64)| before.iter().any(|q| q.0 == p.0 && q.1 != p.1);
                let deferred = ring.iter().filter(moved).count();
                self.see("poll that defers", deferred > 0);
                self.see("poll that defers two or more", deferred > 1);
                self.see("poll that defers and lapses", deferred > 0 && value > 0);
                self.see("poll with two or more lapses", value > 1);
                self.see("lapse into a late list with a hole", holed(i) && value > 0);
                self.see("lapse past data", value > 0 && i[DATA] == 1);
            }
            SWEEP => self.see("sweep of five or more", value > 4),
            JUDGE => {
                self.see("search probe lost", value == 1);
                self.see(
                    "search cleared by judge",
                    i[SEEK + 4] + i[SEEK + 3] > 0 && value == 1 && j[SEEK + 4] == 0,
                );
                self.see("judge with nothing out", i[SEEK + 3] == 0);
            }
            SEARCH => {
                self.see("search halved", i[SEEK + 4] != 0);
                self.see("search at or after a next try", i[SEEK] == 1);
                let raised = self.tries[usize::from(e.slot)];
                self.see("search 600 s after a clearing", raised == Some(i[SEEK + 1]));
            }
            SAMPLE => {
                let count = |image: &Image| marked(image, SAMPLES, SPANS, 3);
                self.see("sample that drops others", count(j) < count(i));
                self.see(
                    "sample that replaces one of 32",
                    count(i) == 32 && count(j) == 32,
                );
                let count = |image: &Image| marked(image, SPANS, SPANS + 32, 4);
                self.see(
                    "span dropped",
                    count(j) < count(i) + 1
                        && i[SPANS..SPANS + 32] != j[SPANS..SPANS + 32]
                        && count(j) <= count(i),
                );
                self.see("eight spans", count(j) == 8);
            }
            HEAR => self.see(
                "data instant that goes back",
                i[DATA] == 1 && e.now < i[DATA + 1],
            ),
            _ => {}
        }
    }

    fn answer(&mut self, value: u64, c: &Change) {
        let (i, j) = (&c.before, &c.after);
        self.see("answer in time", value == 1);
        self.see("late answer", value == 2);
        self.see("late answer that leaves a hole", value == 2 && holed(j));
        self.see("search answer", value == 3);
        let proven = i[81] == 1 && j[82] > i[82];
        self.see("search answer that proves", value == 3 && proven);
        self.see(
            "search answer that loses",
            value == 3 && j[SEEK + 4] != i[SEEK + 4] && j[SEEK + 4] != 0,
        );
        self.see(
            "search cleared by answer",
            value == 3 && i[SEEK + 4] != 0 && j[SEEK + 4] == 0,
        );
        self.see(
            "answer that leaves `answered`",
            value == 1 && i[IDS + 2..IDS + 4] == j[IDS + 2..IDS + 4],
        );
    }

    /// Refusals that show a rule, and clocks.
    fn refused(&mut self, e: &Event, (number, _): Reply, c: &Change) {
        let at = c.before[SEEK + 1];
        let waits = c.before[SEEK] == 1 && c.before[SEEK + 3] == 0 && e.now < at;
        self.see(
            "search refused before the next try",
            number == 10 && e.kind == SEARCH && waits,
        );
        self.see(
            "search refused one before it",
            number == 10 && e.kind == SEARCH && waits && e.now + 1 == at,
        );
        let last = c.before[IDS + 1].wrapping_sub(e.id.into()) as u32;
        self.see(
            "answer to an identifier that was given and is gone",
            number == 9 && last > 0 && last < 100,
        );
    }

    /// What a choice hangs on: it is another without it.
    fn choice(&mut self, e: &Event, reply: Reply, before: &Record) {
        let marks = [
            ("choice by pin", Mark::Pinned),
            ("choice by tier", Mark::Tier),
            ("choice by fitting", Mark::Fits),
            ("choice by preferred", Mark::Preferred),
            ("choice by medium", Mark::Medium),
        ];
        let margin = f64::from_bits(e.span);
        let odd = margin > 1e300 || margin > 1.0 && margin < 1.0 + 1e-15;
        self.see("choice by a margin just above 1 or just finite", odd);
        for (name, mark) in marks {
            let moved = before.without(mark).event(e) != reply;
            self.see(name, moved);
        }
        let scored = |slot: usize| {
            before
                .image(slot)
                .is_some_and(|i| marked(&i, SAMPLES, SPANS, 3) > 0)
        };
        self.see("choice with no score", !(0..SLOTS).any(scored));
    }

    /// Print all of it to standard error.
    pub fn print(&self) {
        eprintln!(
            "{} lists, {} of 60 events and more, {} events",
            self.lists, self.long, self.events
        );
        for (kind, (accepted, refused)) in &self.kinds {
            eprintln!("  kind {kind}: {accepted} accepted, {refused} refused");
        }
        for (number, count) in &self.numbers {
            eprintln!("  number {number}: {count}");
        }
        self.print_seen();
    }

    /// Print what is counted by name.
    pub fn print_seen(&self) {
        for (what, count) in &self.seen {
            eprintln!("  {what}: {count}");
        }
    }
}
