//! One list of events on both sides: every reply, and all open slots' standings after every event, by
//! a call of ours for each beginning. Then demand 3's clauses over ours' replies.

use crate::clauses::{Checker, Clause, Tried};
use crate::events::{ANSWER, SWEEP};
use crate::filed::Filed;
use crate::ours::Ours;
use crate::reach::Reach;
use oracle::proto::path::eventfile::{WIDTHS, output_of};
use oracle::proto::path::record::{Event, Record, Reply, SLOTS};
use oracle::proto::path::script::word;

/// Bytes of a reply; the most of a slot's number and standing.
const REPLY: usize = 16;
const STANDING: usize = 52;

/// What was compared.
#[derive(Default)]
pub struct Tally {
    pub lists: u64,
    /// Events whose reply was compared; those with the standings after them.
    pub replies: u64,
    pub events: u64,
    /// Calls of ours, and the events in them.
    pub calls: u64,
    pub steps: u64,
    /// Standings of open slots.
    pub standings: u64,
    /// Calls with too few lent bytes.
    pub lent: u64,
    pub tried: Tried,
    pub reach: Reach,
}

impl Tally {
    /// The counts of two threads together.
    pub fn add(&mut self, other: Self) {
        self.lists += other.lists;
        self.replies += other.replies;
        self.events += other.events;
        self.calls += other.calls;
        self.steps += other.steps;
        self.standings += other.standings;
        self.lent += other.lent;
        self.tried.add(other.tried);
        self.reach.add(other.reach);
    }
}

/// The Rust's side of one list: its record, the replies that it gave, and the books.
struct Sides<'a> {
    record: Record,
    replies: Vec<u8>,
    checker: Checker<'a>,
}

impl<'a> Sides<'a> {
    fn new(settings: [u64; 4], tried: &'a mut Tried) -> Self {
        Self {
            record: Record::new(settings).expect("allowed settings"),
            replies: Vec::new(),
            checker: Checker::new(settings, tried),
        }
    }

    /// One event on the Rust's record, and with ours' reply in the books.
    fn event(&mut self, event: &Event, ours: Reply, reach: &mut Reach) {
        let before = self.record.clone();
        let reply = self.record.event(event);
        reach.event(event, reply, &before, &self.record);
        put_reply(reply, &mut self.replies);
        self.checker.event(event, ours);
        let image = self.record.image(usize::from(event.slot) % SLOTS);
        self.checker.image(event, reply.0 == 0, image.as_ref());
    }

    /// All replies so far and the standings now, ours beside the Rust's; how many standings.
    fn standings(&mut self, ours: &mut Ours, file: &[u8], more: usize) -> Result<u64, String> {
        let mut expected = self.replies.clone();
        self.record.put_standings(&mut expected);
        let (reply, bytes) = ours.run(file, expected.len() + more)?;
        if (reply.number, reply.value) != (0, expected.len() as u64) || bytes != expected {
            return Err(format!("ours {reply:?}, other bytes"));
        }
        let seen = standings(&bytes[self.replies.len()..]);
        for &(slot, proven, answered) in &seen {
            self.checker.standing(slot, proven, answered);
        }
        Ok(seen.len() as u64)
    }

    /// The identifiers that each open path's book has waiting.
    fn waiting(&self) -> [Option<Vec<u32>>; SLOTS] {
        core::array::from_fn(|slot| {
            let book = self.checker.books[slot].as_ref()?;
            Some(book.waiting.iter().map(|w| w.id).collect())
        })
    }
}

/// One thread's bytes and counts.
#[derive(Default)]
pub struct Worker {
    pub ours: Ours,
    pub tally: Tally,
}

impl Worker {
    /// A list, with standings at every beginning from `from` on. An error is the first beginning that
    /// differs, or what clause ours broke.
    pub fn list(&mut self, filed: &Filed, from: usize) -> Result<(), String> {
        let replies = self.replies(filed)?;
        let mut tried = std::mem::take(&mut self.tally.tried);
        let mut sides = Sides::new(filed.settings, &mut tried);
        self.tally.reach.list(filed.events.len());
        for n in 0..=filed.events.len() {
            if n > 0 {
                sides.event(&filed.events[n - 1], replies[n - 1], &mut self.tally.reach);
            }
            if n >= from || n == filed.events.len() {
                let lent = n % 2 * 20;
                let seen = sides.standings(&mut self.ours, filed.beginning(n), lent);
                self.tally.standings += seen.map_err(|what| format!("after event {n}: {what}"))?;
                self.tally.calls += 1;
                self.tally.steps += n as u64;
                self.tally.events += u64::from(n > 0);
            }
        }
        let waiting = sides.waiting();
        self.tally.tried = tried;
        self.tally.lists += 1;
        self.tally.replies += filed.events.len() as u64;
        self.close(filed, &waiting)?;
        match self.tally.tried.broken.iter().next() {
            Some((clause, (_, why))) => Err(format!("clause {clause:?}: {why}")),
            None => Ok(()),
        }
    }

    /// Ours' reply to each event.
    pub fn replies(&mut self, filed: &Filed) -> Result<Vec<Reply>, String> {
        let count = filed.events.len();
        let lent = REPLY * count + SLOTS * STANDING;
        let (reply, bytes) = self.ours.run(&filed.bytes, lent)?;
        if reply.number != 0 || bytes.len() < REPLY * count {
            return Err(format!("ours: {reply:?}"));
        }
        let reply = |n: usize| (word(bytes, 2 * n), word(bytes, 2 * n + 1));
        Ok((0..count).map(reply).collect())
    }

    /// Whether the ring of ours holds what the books have waiting, by more events at the list's end.
    fn close(&mut self, filed: &Filed, waiting: &[Option<Vec<u32>>; SLOTS]) -> Result<(), String> {
        let swept = filed.events.len() % 2 == 1;
        let mut more = Vec::new();
        for (slot, ids) in waiting.iter().enumerate() {
            more.extend(ids.iter().flat_map(|ids| closing(slot as u8, ids, swept)));
        }
        let mut events = filed.events.clone();
        events.extend(more.iter().map(|(event, _)| event));
        let replies = self.replies(&Filed::new(filed.settings, events, || 0))?;
        self.tally.tried.rings(more.len() as u64);
        let expected = more.iter().map(|(_, reply)| reply);
        match replies[filed.events.len()..].iter().eq(expected) {
            true => Ok(()),
            false => Err(format!(
                "clause {:?}: the books have {waiting:?}",
                Clause::Ring
            )),
        }
    }

    /// Any bytes at all: the refusal, or the output. The refusal's number.
    pub fn file(&mut self, file: &[u8]) -> Result<u64, String> {
        let expected = output_of(file);
        let (lent, number) = match &expected {
            Ok(made) => (made.len() + file.len() % 3, 0),
            Err(why) => (64 * file.len(), *why),
        };
        let (reply, bytes) = self.ours.run(file, lent)?;
        let made = expected.unwrap_or_default();
        if (reply.number, reply.value) != (number, made.len() as u64) || bytes != made {
            return Err(format!(
                "ours {reply:?}, the Rust's {number}, {}",
                made.len()
            ));
        }
        self.tally.calls += 1;
        Ok(number)
    }

    /// Too few lent bytes: 16, and nothing is written.
    pub fn lent(&mut self, file: &[u8], lent: usize) -> Result<(), String> {
        let (reply, _) = self.ours.run(file, lent)?;
        self.tally.lent += 1;
        match (reply.number, reply.value) {
            (16, 0) => Ok(()),
            _ => Err(format!("{lent} lent bytes: ours {reply:?}, the Rust's 16")),
        }
    }
}

/// Events that show what waits, with their replies: each is answered in time and none is left to sweep;
/// or all are swept, and the last four answered late.
fn closing(slot: u8, ids: &[u32], swept: bool) -> Vec<(Event, Reply)> {
    let event = |kind, id| Event {
        kind,
        slot,
        id,
        ..Event::default()
    };
    let gone = ids.len().saturating_sub(4);
    let answer = |(n, &id): (usize, &u32)| match swept {
        false => (event(ANSWER, id), (0, 1)),
        true if n < gone => (event(ANSWER, id), (9, 0)),
        true => (event(ANSWER, id), (0, 2)),
    };
    let mut all: Vec<_> = ids.iter().enumerate().map(answer).collect();
    match swept {
        true => all.insert(0, (event(SWEEP, 0), (0, ids.len() as u64))),
        false => all.push((event(SWEEP, 0), (0, 0))),
    }
    all
}

/// Put a reply's two words behind some bytes.
fn put_reply((number, value): Reply, out: &mut Vec<u8>) {
    out.extend_from_slice(&number.to_le_bytes());
    out.extend_from_slice(&value.to_le_bytes());
}

/// Slot, proven and answered of each standing.
fn standings(mut bytes: &[u8]) -> Vec<(usize, Option<u64>, Option<u32>)> {
    const FIELDS: [usize; 6] = [8, 8, 8, WIDTHS[3], WIDTHS[2], 8];
    let mut all = Vec::new();
    while let [slot, map, rest @ ..] = bytes {
        let mut fields = [None; 6];
        let mut rest = rest;
        for bit in (0..6).filter(|bit| map >> bit & 1 == 1) {
            let (now, later) = rest.split_at(FIELDS[bit]);
            let number = now.iter().rev().fold(0, |n, b| n << 8 | u64::from(*b));
            fields[bit] = Some(number);
            rest = later;
        }
        all.push((usize::from(*slot), fields[3], fields[4].map(|n| n as u32)));
        bytes = &rest[12..];
    }
    all
}
