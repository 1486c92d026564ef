//! A path's book, kept from the arguments, refusals and values of its events and never from a record.
//! Written from document 01 alone ("Ring", "Size search", "Peer record"), and for due instants from document
//! 02 (T-09); nothing of the oracle is in it.

use std::collections::{BTreeMap, BTreeSet};

/// The smallest size, the search's step, and how long it rests.
const LEAST: u64 = 27;
const STEP: u64 = 32;
const RAISE: u64 = 600_000_000_000;

/// A waiting probe: its due as deferred so far, and as it was given.
#[derive(Clone, Copy, Debug, PartialEq, Eq)]
pub struct Waiting {
    pub id: u32,
    pub sent: u64,
    pub due: u64,
    pub given: u64,
}

/// A search probe that is out.
#[derive(Clone, Copy, Debug, PartialEq, Eq)]
pub struct Out {
    pub id: u32,
    pub sent: u64,
    pub size: u64,
}

/// What an accepted event was for the search.
#[derive(Clone, Copy, Debug, Default)]
pub struct Turn {
    /// The lost size was cleared.
    pub cleared: bool,
    /// A prove that left the lost size within the step.
    pub near: bool,
}

/// The sizes L that the path's events allow: "the link carries just the sizes up to L".
#[derive(Clone, Copy, Debug, Default)]
pub struct Carries {
    pub least: u64,
    /// Below this, if any.
    pub below: Option<u64>,
    /// No L at all: a search probe was acknowledged at another size than its own.
    pub none: bool,
}

/// Since the open.
#[derive(Clone, Debug, Default)]
pub struct Book {
    pub full: u64,
    pub tier: u8,
    pub pinned: bool,
    pub fits: bool,
    pub sent: u64,
    pub in_time: u64,
    pub lapsed: u64,
    pub swept: u64,
    pub waiting: Vec<Waiting>,
    /// The due that each probe was given, those that wait no more too.
    pub given: BTreeMap<u32, u64>,
    /// Identifiers that got an answer of value 1.
    pub timely: BTreeSet<u32>,
    pub answered: Option<u32>,
    pub proven: Option<u64>,
    pub lost: Option<u64>,
    pub out: Option<Out>,
    /// Search probes from the start on; whether the next one starts.
    pub searches: u64,
    pub starts: bool,
    pub carries: Carries,
    /// When the next search probe may go, where none is out.
    pub next_try: Option<u64>,
    /// The identifier after the last one given, and whether a probe got 23 since that.
    pub next_id: Option<u32>,
    pub refused: bool,
    data: Option<u64>,
}

/// RFC 1982: the difference modulo 2^32 is 1 to 2^31 - 1.
pub fn after(a: u32, b: u32) -> bool {
    (1..1 << 31).contains(&a.wrapping_sub(b))
}

/// t + d; while that passes 2^64 - 1, d is halved, rounding down.
pub fn deadline(t: u64, mut d: u64) -> u64 {
    while u128::from(t) + u128::from(d) > u128::from(u64::MAX) {
        d /= 2;
    }
    t + d
}

/// due < now, or due = now unless overdue.
pub fn passed(due: u64, now: u64, overdue: bool) -> bool {
    due < now || due == now && !overdue
}

impl Book {
    /// The book of an open: bits 2-3 are the role, 4 pinned, 5 fits.
    pub fn open(full: u64, flags: u8) -> Self {
        Self {
            full,
            tier: [0, 1, 2, 2][usize::from(flags >> 2 & 3)],
            pinned: flags >> 4 & 1 == 1,
            fits: flags >> 5 & 1 == 1,
            ..Self::default()
        }
    }

    /// An identifier is given: whether it is the next one, the draw being the first.
    pub fn give(&mut self, id: u32, draw: u32) -> bool {
        let next = self.next_id.unwrap_or(draw);
        self.next_id = Some(id.wrapping_add(1));
        self.refused = false;
        id == next
    }

    pub fn probe(&mut self, id: u32, sent: u64, due: u64) {
        self.sent += 1;
        self.given.insert(id, due);
        self.waiting.push(Waiting {
            id,
            sent,
            due,
            given: due,
        });
    }

    /// `expire` until none: the first whose due has passed is deferred to its cap deadline if data came
    /// after it was sent and that hasn't passed, else it lapses; then the scan starts over.
    pub fn poll(&mut self, now: u64, overdue: bool, cap: u64) {
        let due = |w: &Waiting| passed(w.due, now, overdue);
        while let Some(at) = self.waiting.iter().position(due) {
            let probe = &mut self.waiting[at];
            let end = deadline(probe.sent, cap);
            let heard = self.data.is_some_and(|data| data > probe.sent);
            if heard && !passed(end, now, overdue) {
                probe.due = end;
            } else {
                self.waiting.remove(at);
            }
        }
    }

    pub fn data(&mut self, now: u64) {
        self.data = Some(now);
    }

    /// An answer to a probe that waits is in time: it moves `answered` from none or to a later one.
    pub fn answer(&mut self, id: u32) {
        let Some(at) = self.waiting.iter().position(|w| w.id == id) else {
            return;
        };
        self.waiting.remove(at);
        if self.answered.is_none_or(|a| after(id, a)) {
            self.answered = Some(id);
        }
    }

    pub fn prove(&mut self, len: u64) -> Turn {
        self.proven = Some(len);
        self.searches = 0;
        Turn {
            near: self.lost.is_some_and(|lost| lost <= len + STEP),
            ..Turn::default()
        }
    }

    /// Clears the search, not the proven size.
    pub fn fresh(&mut self) {
        (self.out, self.lost, self.next_try) = (None, None, None);
        self.searches = 0;
    }

    /// The size that a search would send now.
    pub fn proposal(&self, now: u64) -> Option<u64> {
        let proven = self.proven?;
        let early = self.next_try.is_some_and(|next| now < next);
        if self.out.is_some() || early || proven >= self.full {
            return None;
        }
        match self.lost {
            None => Some(self.full),
            Some(lost) if lost > proven + STEP => Some(proven + (lost - proven) / 2),
            Some(_) => None,
        }
    }

    /// A search probe goes out.
    pub fn search(&mut self, id: u32, sent: u64, size: u64) {
        self.out = Some(Out { id, sent, size });
        self.searches = match self.starts {
            true => 1,
            false => self.searches + 1,
        };
        self.starts = false;
    }

    /// The search probe is acknowledged.
    pub fn acknowledge(&mut self, acked: u64, now: u64, gap: u64) -> Turn {
        let Some(out) = self.settle(gap) else {
            return Turn::default();
        };
        let size = out.size.min(acked);
        if size > LEAST && self.proven.is_none_or(|proven| size > proven) {
            self.proven = Some(size);
        }
        if acked < out.size {
            self.lose(out.size);
        }
        self.end(now)
    }

    /// Whether a judgement now loses the search probe.
    pub fn loses(&self, now: u64, timeout: u64) -> bool {
        let judged = |out: Out| {
            now >= deadline(out.sent, timeout) && self.answered.is_some_and(|a| after(a, out.id))
        };
        self.out.is_some_and(judged)
    }

    /// The search probe is lost.
    pub fn judge_lost(&mut self, now: u64, gap: u64) -> Turn {
        if let Some(out) = self.settle(gap) {
            self.lose(out.size);
        }
        self.end(now)
    }

    /// None is out; the next may go a gap after it was sent.
    fn settle(&mut self, gap: u64) -> Option<Out> {
        let out = self.out.take()?;
        self.next_try = Some(deadline(out.sent, gap));
        Some(out)
    }

    fn lose(&mut self, size: u64) {
        self.lost = Some(self.lost.map_or(size, |lost| lost.min(size)));
    }

    /// A held lost size within the step of the proven one is cleared; the next try is 600 s on.
    fn end(&mut self, now: u64) -> Turn {
        let (Some(lost), Some(proven)) = (self.lost, self.proven) else {
            return Turn::default();
        };
        let cleared = lost <= proven + STEP;
        if cleared {
            self.lost = None;
            self.next_try = Some(deadline(now, RAISE));
            self.starts = true;
        }
        Turn {
            cleared,
            near: false,
        }
    }
}

impl Carries {
    /// A size that the path was proved to carry, or acknowledged at.
    pub fn carried(&mut self, size: u64) {
        self.least = self.least.max(size);
    }

    /// A size that was judged lost.
    pub fn lost(&mut self, size: u64) {
        self.below = Some(self.below.map_or(size, |below| below.min(size)));
    }

    /// Whether some L is allowed.
    pub fn any(&self) -> bool {
        !self.none && self.below.is_none_or(|below| self.least < below)
    }

    /// Whether for every allowed L: proven <= L, and proven >= full or L <= proven + 31.
    pub fn fit(&self, proven: u64, full: u64) -> bool {
        let near = self.below.is_some_and(|below| below <= proven + 31 + 1);
        !self.any() || proven <= self.least && (proven >= full || near)
    }
}
