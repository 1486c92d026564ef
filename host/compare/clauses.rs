//! Demand 3's clauses over a list of events and its answers, by document 01, and what document 02 says of due
//! instants: a checker with a book for each slot. It counts what each clause was tried on, and which clauses
//! were broken.

use crate::book::{Book, Turn, deadline, passed};
use crate::calls::{IDS, LATE, PROVEN, RING, SEEK};
use oracle::proto::path::record::{Event, Reply, SLOTS};
use oracle::proto::path::script::Image;
use std::collections::BTreeMap;

/// The clauses, in demand 3's order; then document 02's.
#[derive(Clone, Copy, Debug, PartialEq, Eq, PartialOrd, Ord)]
pub enum Clause {
    /// Sent = answered in time + lapsed + swept + waiting.
    Sum,
    /// The ring holds exactly the waiting ones.
    Ring,
    /// No probe was answered in time twice.
    Once,
    /// No accepted poll left a probe waiting whose due and cap deadline had both passed.
    Polls,
    /// At most 12 search probes from each start on, every accepted search counted.
    Twelve,
    /// Each accepted search was one that the rule proposed.
    Sought,
    /// Each rest, for every L.
    Rests,
    /// Each choose with an allowed margin.
    Choose,
    /// An answer to the search probe has 3, a judgement that loses it 1, others 0.
    Values,
    /// Proven, lost, out, the next try and answered of the record are the book's.
    Agree,
    /// Just the probes due before their now get 23, of those on an open path with an allowed length; the
    /// identifier given next is that after the last.
    Dues,
}

pub const CLAUSES: [Clause; 11] = [
    Clause::Sum,
    Clause::Ring,
    Clause::Once,
    Clause::Polls,
    Clause::Twelve,
    Clause::Sought,
    Clause::Rests,
    Clause::Choose,
    Clause::Values,
    Clause::Agree,
    Clause::Dues,
];

/// Counts by what was tried, and the first break of each clause.
#[derive(Clone, Debug, Default)]
pub struct Tried {
    pub counts: BTreeMap<&'static str, u64>,
    pub broken: BTreeMap<Clause, (u64, String)>,
    pub most: u64,
}

impl Tried {
    fn count(&mut self, what: &'static str, on: bool) {
        *self.counts.entry(what).or_default() += u64::from(on);
    }

    /// Say that a clause is broken, unless it holds.
    fn hold(&mut self, clause: Clause, holds: bool, why: impl FnOnce() -> String) {
        if !holds {
            self.broken.entry(clause).or_insert_with(|| (0, why())).0 += 1;
        }
    }

    /// Events that showed a ring of ours to be its book's.
    pub fn rings(&mut self, events: u64) {
        *self
            .counts
            .entry("probes and sweeps that show rings of ours")
            .or_default() += events;
    }

    /// The counts of two threads together.
    pub fn add(&mut self, other: Self) {
        for (what, count) in other.counts {
            *self.counts.entry(what).or_default() += count;
        }
        for (clause, (count, why)) in other.broken {
            self.broken.entry(clause).or_insert((0, why)).0 += count;
        }
        self.most = self.most.max(other.most);
    }
}

/// The books of one list's paths.
pub struct Checker<'a> {
    cap: u64,
    gap: u64,
    pub books: [Option<Book>; SLOTS],
    tried: &'a mut Tried,
}

impl<'a> Checker<'a> {
    pub fn new(settings: [u64; 4], tried: &'a mut Tried) -> Self {
        Self {
            cap: settings[0],
            gap: settings[1],
            books: Default::default(),
            tried,
        }
    }

    /// One event and its answer.
    pub fn event(&mut self, e: &Event, reply: Reply) {
        if e.kind == 15 {
            let why = || "a choose gets 23".to_string();
            self.tried.hold(Clause::Dues, reply.0 != 23, why);
            return self.choose(f64::from_bits(e.span), reply);
        }
        let slot = usize::from(e.slot);
        self.due(slot, e, reply);
        if reply.0 != 0 || slot >= SLOTS {
            return;
        }
        match e.kind {
            1 => self.books[slot] = Some(Book::open(e.len.into(), e.flags)),
            14 => self.books[slot] = None,
            _ => self.on_path(slot, e, reply.1),
        }
    }

    /// An accepted event on a path that is open.
    fn on_path(&mut self, slot: usize, e: &Event, value: u64) {
        let Some(mut book) = self.books[slot].take() else {
            let why = || format!("kind {} accepted on an empty slot", e.kind);
            return self.tried.hold(Clause::Agree, false, why);
        };
        let turn = match e.kind {
            3 => self.answer(&mut book, e, value),
            4 => self.poll(&mut book, e, value),
            7 => self.prove(&mut book, e),
            8 => self.search(&mut book, e, value),
            9 => self.judge(&mut book, e, value),
            kind => {
                match kind {
                    2 => book.probe(value as u32, e.now, e.span),
                    10 => book.data(e.now),
                    11 => book.fresh(),
                    13 => {
                        book.swept = book.swept.wrapping_add(value);
                        book.waiting.clear();
                    }
                    _ => {}
                }
                Turn::default()
            }
        };
        self.sum(&book);
        self.rest(&book, turn);
        self.books[slot] = Some(book);
    }

    /// Document 02, T-09: a probe whose due instant lies before its now gets 23, after 1, 2 and 5 and before 8,
    /// and nothing else does. It takes no identifier.
    fn due(&mut self, slot: usize, e: &Event, (number, value): Reply) {
        let mut book = self.books.get_mut(slot).and_then(Option::as_mut);
        let early = e.kind == 2 && e.span < e.now;
        let owed = early && book.is_some() && e.len <= 65_535;
        let eight = book.as_ref().is_some_and(|book| book.waiting.len() == 8);
        let tried = &mut self.tried;
        tried.count("probes due before their now", owed && !eight);
        tried.count("probes due before their now, eight waiting", owed && eight);
        tried.count("probes due before their now, none open", early && !owed);
        let at = e.kind == 2 && e.span == e.now && number == 0;
        tried.count("probes sent due at their now", at);
        let why = || {
            let (now, due) = (e.now, e.span);
            format!("kind {} at {now}, due {due}, has {number}", e.kind)
        };
        tried.hold(Clause::Dues, (number == 23) == owed, why);
        let Some(book) = &mut book else {
            return;
        };
        if number == 0 && matches!(e.kind, 2 | 8) {
            let refused = book.refused;
            let next = book.give(value as u32, e.id);
            tried.count("identifiers given after a 23", refused);
            let why = || format!("identifier {value} after a probe that got 23");
            tried.hold(Clause::Dues, next || !refused, why);
        }
        book.refused |= number == 23;
    }

    fn sum(&mut self, book: &Book) {
        let waiting = book.waiting.len() as u64;
        let ends = [book.in_time, book.lapsed, book.swept, waiting];
        let all = ends.iter().fold(0, |all: u64, n| all.wrapping_add(*n));
        self.tried.count("sums", true);
        self.tried
            .count("sums with some of each kind", ends.iter().all(|n| *n > 0));
        self.tried.hold(Clause::Sum, book.sent == all, || {
            let [timely, lapsed, swept, waiting] = ends;
            let sent = book.sent;
            format!("{sent} sent, {timely} in time, {lapsed} lapsed, {swept} swept, {waiting} wait")
        });
    }

    fn answer(&mut self, book: &mut Book, e: &Event, value: u64) -> Turn {
        let out = book.out.filter(|out| out.id == e.id);
        let named = out.is_some();
        self.tried.count("answers to the search probe", named);
        let why = || format!("answer {} has {value}", e.id);
        self.tried.hold(Clause::Values, (value == 3) == named, why);
        if value == 1 {
            book.in_time += 1;
            let first = book.timely.insert(e.id);
            self.tried.count("answers in time", true);
            let why = || format!("identifier {} answered in time twice", e.id);
            self.tried.hold(Clause::Once, first, why);
        }
        if let (3, Some(out)) = (value, book.out) {
            match u64::from(e.acked) == out.size {
                true => book.carries.carried(out.size),
                false => book.carries.none = true,
            }
        }
        match named {
            true => book.acknowledge(e.acked.into(), e.now, self.gap),
            false => {
                book.answer(e.id);
                Turn::default()
            }
        }
    }

    fn poll(&mut self, book: &mut Book, e: &Event, value: u64) -> Turn {
        let overdue = e.flags & 1 == 1;
        book.lapsed = book.lapsed.wrapping_add(value);
        book.poll(e.now, overdue, self.cap);
        for probe in &book.waiting {
            self.left(probe.given, probe.sent, e);
        }
        Turn::default()
    }

    /// A probe that a poll left waiting, by the due that it was given.
    fn left(&mut self, given: u64, sent: u64, poll: &Event) {
        let overdue = poll.flags & 1 == 1;
        let due = passed(given, poll.now, overdue);
        let end = passed(deadline(sent, self.cap), poll.now, overdue);
        self.tried.count("probes left by a poll", true);
        self.tried.count("probes left though due, deferred", due);
        self.tried
            .count("probes left though their cap deadline had passed", end);
        let why = || format!("poll {} left due {given}, sent {sent}", poll.now);
        self.tried.hold(Clause::Polls, !(due && end), why);
    }

    fn prove(&mut self, book: &mut Book, e: &Event) -> Turn {
        book.carries.carried(e.len.into());
        let turn = book.prove(e.len.into());
        self.tried
            .count("proves that left a lost size near", turn.near);
        turn
    }

    fn search(&mut self, book: &mut Book, e: &Event, value: u64) -> Turn {
        let size = book.proposal(e.now);
        let why = || format!("search at {} accepted, no size proposed", e.now);
        self.tried.hold(Clause::Sought, size.is_some(), why);
        self.tried
            .count("starts by a search probe after a clearing", book.starts);
        book.search(value as u32, e.now, size.unwrap_or(0));
        self.tried.count("search probes", true);
        self.tried.most = self.tried.most.max(book.searches);
        self.tried.count(
            "search probes, the twelfth from a start",
            book.searches == 12,
        );
        let why = || format!("{} search probes from a start on", book.searches);
        self.tried.hold(Clause::Twelve, book.searches <= 12, why);
        Turn::default()
    }

    fn judge(&mut self, book: &mut Book, e: &Event, value: u64) -> Turn {
        let loses = book.loses(e.now, e.span);
        self.tried.count("judgements that lose", loses);
        self.tried.count(
            "judgements that leave a search probe out",
            !loses && book.out.is_some(),
        );
        self.tried
            .count("judgements with none out", book.out.is_none());
        let why = || format!("judge {} has {value}", e.now);
        self.tried
            .hold(Clause::Values, value == u64::from(loses), why);
        if let (1, Some(out)) = (value, book.out) {
            book.carries.lost(out.size);
        }
        match loses {
            true => book.judge_lost(e.now, self.gap),
            false => Turn::default(),
        }
    }

    /// None out and proven >= full, or a clearing, or a prove that left a lost size near.
    fn rest(&mut self, book: &Book, turn: Turn) {
        let Some(proven) = book.proven else {
            return;
        };
        let full = book.out.is_none() && proven >= book.full;
        if !(full || turn.cleared || turn.near) {
            return;
        }
        let carries = &book.carries;
        self.tried.count("rests at full", full);
        self.tried.count("rests by a clearing", turn.cleared);
        self.tried.count("rests by a prove", turn.near);
        self.tried.count("rests that some L allows", carries.any());
        let bounded = carries.any() && carries.below.is_some();
        self.tried
            .count("rests that some L allows, a size lost", bounded);
        let why = || format!("rest at proven {proven}, full {}, {carries:?}", book.full);
        self.tried
            .hold(Clause::Rests, carries.fit(proven, book.full), why);
    }

    /// 11 exactly when none is open; else open, pinned if any, of the highest tier, fitting if any.
    fn choose(&mut self, margin: f64, reply: Reply) {
        if !(margin.is_finite() && margin >= 1.0) {
            return;
        }
        let open = || (0..SLOTS).filter_map(|at| Some((at as u64, self.books[at].as_ref()?)));
        let pinned = open().any(|(_, b)| b.pinned);
        let named = || open().filter(|(_, b)| b.pinned || !pinned);
        let tier = named().map(|(_, b)| b.tier).max();
        let highest = || named().filter(|(_, b)| Some(b.tier) == tier);
        let fits = highest().any(|(_, b)| b.fits);
        let allowed = || highest().filter(|(_, b)| b.fits || !fits);
        let holds = match open().next() {
            None => reply == (11, 0),
            Some(_) => reply.0 == 0 && allowed().any(|(at, _)| at == reply.1),
        };
        let (all, few) = (open().count(), named().count());
        let (high, fit) = (highest().count(), allowed().count());
        let tried = &mut self.tried;
        tried.count("chooses with none open", all == 0);
        tried.count("chooses with some open", all > 0);
        tried.count("chooses that a pin narrows", few < all);
        tried.count("chooses that a tier narrows", high < few);
        tried.count("chooses of tier 0", tier == Some(0));
        tried.count("chooses that fitting narrows", fit < high);
        tried.hold(Clause::Choose, holds, || {
            format!("choose {margin} gives {reply:?}")
        });
    }

    /// A path of the Rust's record beside its book, after an event on it.
    pub fn image(&mut self, e: &Event, accepted: bool, image: Option<&Image>) {
        let slot = usize::from(e.slot);
        if slot >= SLOTS || e.kind == 15 {
            return;
        }
        if let (Some(book), Some(image)) = (self.books[slot].take(), image) {
            self.ring(&book, e, accepted, image);
            self.search_of(&book, image);
            self.books[slot] = Some(book);
        }
    }

    /// The ring holds exactly the waiting ones; a poll left none that was due.
    fn ring(&mut self, book: &Book, e: &Event, accepted: bool, i: &Image) {
        let used = (RING..LATE).step_by(5).filter(|&at| i[at] == 1);
        let ring: Vec<_> = used.map(|at| (i[at + 1], i[at + 2], i[at + 3])).collect();
        let waiting = book.waiting.iter();
        let kept: Vec<_> = waiting.map(|w| (w.id.into(), w.sent, w.due)).collect();
        self.tried.count("rings of the Rust's record", true);
        let why = || format!("the ring has {ring:?}, the book {kept:?}");
        self.tried.hold(Clause::Ring, ring == kept, why);
        if e.kind == 4 && accepted {
            for &(id, sent, due) in &ring {
                let given = book.given.get(&(id as u32));
                self.left(given.copied().unwrap_or(due), sent, e);
            }
        }
    }

    /// Proven, answered, lost and out are the book's, and with none out the next try.
    fn search_of(&mut self, book: &Book, i: &Image) {
        let size = |size: u64| (size != 0).then_some(size);
        let seen = (
            (i[PROVEN] == 1).then_some(i[PROVEN + 1]),
            (i[IDS + 2] == 1).then_some(i[IDS + 3] as u32),
            size(i[SEEK + 4]),
            size(i[SEEK + 3]).map(|size| (i[SEEK + 2] as u32, i[SEEK + 1], size)),
            (i[SEEK] == 1 && i[SEEK + 3] == 0).then_some(i[SEEK + 1]),
        );
        let out = book.out.map(|out| (out.id, out.sent, out.size));
        let next = book.next_try.filter(|_| out.is_none());
        let told = (book.proven, book.answered, book.lost, out, next);
        let why = || format!("the record has {seen:?}, the book {told:?}");
        self.tried.hold(Clause::Agree, seen == told, why);
    }

    /// Proven and answered of a standing of ours beside the book.
    pub fn standing(&mut self, slot: usize, proven: Option<u64>, answered: Option<u32>) {
        let told = self.books[slot]
            .as_ref()
            .map(|book| (book.proven, book.answered));
        let seen = Some((proven, answered));
        self.tried.count("standings of ours", true);
        let why = || format!("ours has {seen:?}, the book {told:?}");
        self.tried.hold(Clause::Agree, seen == told, why);
    }
}
