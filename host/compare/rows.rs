//! A record in words beside the Rust's record: one call an event, by numbers, by bytes and by words in turn.
//! After every event the reply, all standings and every word, which must be the encoder's. Then the same with settings
//! at the limit, which an event tries, and words that no record wrote.

use crate::damage::damaged;
use crate::encoder::{encoded, normal, normal_rows, slot_rows};
use crate::clib::Reply;
use crate::events::{CHOOSE, List, PROBE, THEMES, words_of};
use crate::filed::Filed;
use crate::handed::{Handed, Sixes};
use crate::kept::{Guarded, Kept, reply_in};
use crate::papers;
use crate::random::Rng;
use crate::reach::Reach;
use crate::strange::{self, Reached};
use oracle::proto::path::eventfile::{Next, SETTINGS, record_at};
use oracle::proto::path::record::{Event, Record, SLOTS};
use std::sync::atomic::{AtomicUsize, Ordering};
use std::time::Instant;

/// Threads; the most bytes of a standing; the seed of the lists.
const THREADS: usize = 2;
const STANDING: usize = 51;
const SEED: u64 = 900;
/// One list in so many runs again with settings at the limit, one in so many has damaged bytes beside it; so many in a
/// hundred run on words that no record wrote.
const HANDED: usize = 3;
const DAMAGED: usize = 8;
const STRANGE: u64 = 60;
/// Copies of such words.
const COPIES: u64 = 3;
/// One list in so many has thousands of events.
const LONG: usize = 500;

/// What was compared.
#[derive(Default)]
pub struct Tally {
    lists: u64,
    events: u64,
    handed: u64,
    sixes: Sixes,
    by_bytes: u64,
    by_words: u64,
    refused: u64,
    unread: u64,
    standings: u64,
    few: u64,
    strange: Reached,
    /// What probes show of their due instants.
    dues: Reach,
}

impl Tally {
    fn add(&mut self, other: Self) {
        self.lists += other.lists;
        self.events += other.events;
        self.handed += other.handed;
        self.sixes.add(&other.sixes);
        self.by_bytes += other.by_bytes;
        self.by_words += other.by_words;
        self.refused += other.refused;
        self.unread += other.unread;
        self.standings += other.standings;
        self.few += other.few;
        self.strange.add(&other.strange);
        self.dues.add(other.dues);
    }

    /// Calls of ours with an event.
    fn all(&self) -> u64 {
        self.events + self.unread + COPIES * self.strange.calls()
    }
}

/// Compare at least so many events beside the Rust's record, and the others on the way.
pub fn compare(events: u64) {
    let start = Instant::now();
    assert_eq!(Kept::size(), size_of::<Kept>() as u64, "hess_record_size");
    let next = AtomicUsize::new(0);
    let done = AtomicUsize::new(0);
    let work = || {
        let mut tally = Tally::default();
        while (done.load(Ordering::Relaxed) as u64) < events {
            let n = next.fetch_add(1, Ordering::Relaxed);
            let before = tally.events;
            if let Err(what) = piece(&mut tally, n) {
                println!("rows, list {n}: {what}");
                std::process::exit(1);
            }
            done.fetch_add((tally.events - before) as usize, Ordering::Relaxed);
        }
        tally
    };
    let tally = std::thread::scope(|scope| {
        let threads: Vec<_> = (0..THREADS).map(|_| scope.spawn(work)).collect();
        let mut all = Tally::default();
        for thread in threads {
            all.add(thread.join().expect("a thread ends"));
        }
        all
    });
    print(&tally);
    tally.sixes.print();
    tally.strange.print();
    tally.dues.print_seen();
    let unseen: Vec<_> = tally.dues.unseen().collect();
    if !unseen.is_empty() {
        println!("rows: never reached: {unseen:?}");
        std::process::exit(1);
    }
    println!(
        "no difference in rows; {:.1} seconds",
        start.elapsed().as_secs_f64()
    );
}

fn print(t: &Tally) {
    println!(
        "{} calls with an event on a record in words: {} in {} lists beside the Rust's record ({} by bytes, {} by words, {} refused; \
         {} with settings at the limit), {} that can't be read, {} on words that no record wrote, each on {COPIES} copies",
        t.all(),
        t.events,
        t.lists,
        t.by_bytes,
        t.by_words,
        t.refused,
        t.handed,
        t.unread,
        t.strange.calls()
    );
    println!(
        "  {} standings, {} with too few lent bytes; every word the encoder's after every event",
        t.standings, t.few
    );
}

/// One list, and what hangs on its number.
fn piece(tally: &mut Tally, n: usize) -> Result<(), String> {
    let papers = papers::lists();
    let mut rng = Rng::new(SEED.wrapping_add((n as u64) << 20));
    let list = match papers.into_iter().nth(n) {
        Some(list) => list,
        None => made(&mut rng, n),
    };
    let filed = Filed::of(&list, rng.next());
    Sides::new(&list)?.run(tally, &list, &filed, None)?;
    tally.lists += 1;
    if n % HANDED == 0 {
        let handed = Handed::new(rng.clone(), list.settings);
        Sides::new(&list)?.run(tally, &list, &filed, Some(handed))?;
        tally.lists += 1;
        tally.handed += list.events.len() as u64;
    }
    if n % DAMAGED == 0 && !filed.events.is_empty() {
        Sides::new(&list)?.file(tally, &damaged(&filed, &mut rng))?;
    }
    if rng.percent(STRANGE) {
        strange_run(tally, &list, &mut rng)?;
    }
    Ok(())
}

/// A list of a theme, as a file can hold it or not.
fn made(rng: &mut Rng, n: usize) -> List {
    let theme = &THEMES[n % THEMES.len()];
    let len = match n % LONG {
        0 => 3_000 + rng.below(3_000),
        1..20 => 150 + rng.below(250),
        _ => 20 + rng.below(60),
    };
    match n % 2 {
        0 => theme.filed(rng.next(), len as usize),
        _ => theme.list(rng.next(), len as usize),
    }
}

/// Both sides of one list.
struct Sides {
    record: Record,
    ours: Box<Guarded>,
    /// The encoder's words of the Rust's record.
    words: Box<Kept>,
    told: Vec<u8>,
}

impl Sides {
    /// New in words that are not 0; settings that are too large write nothing.
    fn new(list: &List) -> Result<Self, String> {
        let mut ours = Box::new(Guarded::new(Kept::filled(|| 0x0123_4567_89ab_cdef)));
        let before = ours.kept.clone();
        let [cap, gap, window, _] = list.settings;
        let refused = ours.kept.renew([cap, gap, window, 1 << 62]);
        if (refused.number, refused.value) != (6, 0) || ours.kept != before {
            return Err(format!("settings of 2^62: {refused:?}"));
        }
        let reply = ours.kept.renew(list.settings);
        let record = Record::new(list.settings).expect("allowed settings");
        let words = Box::new(encoded(&record));
        if (reply.number, reply.value) != (0, 0) || ours.kept != *words {
            return Err(format!("a new record: {reply:?}, or other words"));
        }
        Ok(Self {
            record,
            ours,
            words,
            told: Vec::new(),
        })
    }

    /// The list's events by numbers, by bytes where a file can hold them, and by words, in turn; with the settings that
    /// are handed in, if any are.
    fn run(
        &mut self,
        tally: &mut Tally,
        list: &List,
        filed: &Filed,
        mut handed: Option<Handed>,
    ) -> Result<(), String> {
        let same = list.events == filed.events;
        tally.dues.list(list.events.len());
        for (n, event) in list.events.iter().enumerate() {
            if let Some(handed) = &mut handed {
                self.hand(handed.next());
            }
            let way = if n % 3 == 1 && !same { 0 } else { n % 3 };
            let reply = match way {
                1 => self.by_bytes(tally, filed, n)?,
                2 => self.by_words(tally, event),
                _ => self.ours.kept.event(event),
            };
            let settings = self.record.settings();
            tally.sixes.count(reply.number, event, settings, way);
            self.event(tally, event, reply)
                .map_err(|what| format!("event {}, {event:?}, {settings:?}: {what}", n + 1))?;
        }
        match *self.words == encoded(&self.record) && self.ours.whole() {
            true => Ok(()),
            false => Err("at the end: other words".to_string()),
        }
    }

    /// Other settings for the events from now on, on both sides.
    fn hand(&mut self, settings: [u64; 4]) {
        self.record.hand(settings);
        self.ours.kept.settings = settings;
        self.words.settings = settings;
    }

    /// An event by its words; the byte that is not read may be any.
    fn by_words(&mut self, tally: &mut Tally, event: &Event) -> Reply {
        tally.by_words += 1;
        reply_in(self.ours.kept.words(&words_of(event, tally.by_words as u8)))
    }

    /// An event by the file's bytes from it on.
    fn by_bytes(&mut self, tally: &mut Tally, filed: &Filed, n: usize) -> Result<Reply, String> {
        let (rest, size) = filed.rest(n);
        let taken = self.ours.kept.bytes(rest);
        tally.by_bytes += 1;
        match taken.read == size as u64 {
            true => Ok(Reply {
                number: taken.number,
                value: taken.value,
            }),
            false => Err(format!("event {}: {taken:?}, {size} bytes", n + 1)),
        }
    }

    /// The Rust's record after an event, and what ours answered: the reply, the words, the standings.
    fn event(&mut self, tally: &mut Tally, event: &Event, ours: Reply) -> Result<(), String> {
        let slot = usize::from(event.slot);
        let probed = match event.kind == PROBE && slot < SLOTS {
            true => self.record.image(slot),
            false => None,
        };
        let rust = self.record.event(event);
        if let Some(before) = probed {
            tally.dues.due(event, rust, &before);
        }
        if (ours.number, ours.value) != rust {
            return Err(format!("ours {ours:?}, the Rust's {rust:?}"));
        }
        // A refused event leaves every word: those of before are compared.
        if rust.0 == 0 && slot < SLOTS {
            self.words.slots[slot] = slot_rows(&self.record, slot);
        }
        if self.ours.kept != *self.words {
            return Err(differing(&self.ours.kept, &self.words));
        }
        tally.events += 1;
        tally.refused += u64::from(rust.0 != 0);
        self.standings(tally)
    }

    /// The standings of all slots, one more than there are; now and then with too few lent bytes.
    fn standings(&mut self, tally: &mut Tally) -> Result<(), String> {
        for slot in 0..=SLOTS {
            let mut out = [0xe7; STANDING + 1];
            self.told.clear();
            let number = match slot < SLOTS {
                true if self.record.put_slot(slot, &mut self.told) => 0,
                true => 2,
                false => 1,
            };
            let reply = self.ours.kept.standing(slot as u8, &mut out);
            let told = self.told.len();
            let whole = out[..told] == self.told && out[told..].iter().all(|&b| b == 0xe7);
            if (reply.number, reply.value) != (number, told as u64) || !whole {
                return Err(format!("the standing of slot {slot}: {reply:?}"));
            }
            tally.standings += u64::from(number == 0);
            if number == 0 && tally.events % 64 == 0 {
                let mut out = [0xe7; STANDING];
                let lent = told - 1 - (tally.events / 64) as usize % told;
                let reply = self.ours.kept.standing(slot as u8, &mut out[..lent]);
                if (reply.number, reply.value) != (16, 0) || out != [0xe7; STANDING] {
                    return Err(format!("slot {slot}, {lent} lent bytes: {reply:?}"));
                }
                tally.few += 1;
            }
        }
        Ok(())
    }

    /// The records of a file that may be damaged, to the first that can't be read: it changes nothing.
    fn file(&mut self, tally: &mut Tally, file: &[u8]) -> Result<(), String> {
        let mut rest = file.get(SETTINGS..).unwrap_or_default();
        tally.dues.list(0);
        loop {
            let taken = self.ours.kept.bytes(rest);
            let (event, size) = match record_at(rest) {
                Next::Event(event, size) => (event, size),
                Next::End => return self.unread(tally, taken, 13),
                Next::Bad(number, _) => return self.unread(tally, taken, number),
            };
            if taken.read != size as u64 {
                return Err(format!("damaged: {taken:?}, {size} bytes"));
            }
            let (number, value) = (taken.number, taken.value);
            self.event(tally, &event, Reply { number, value })
                .map_err(|what| format!("damaged, {event:?}: {what}"))?;
            tally.by_bytes += 1;
            rest = &rest[size..];
        }
    }

    /// Bytes that no event can be read from.
    fn unread(
        &mut self,
        tally: &mut Tally,
        taken: crate::kept::Taken,
        number: u64,
    ) -> Result<(), String> {
        tally.unread += 1;
        let right = (taken.number, taken.value, taken.read) == (number, 0, 0);
        match right && self.ours.kept == *self.words {
            true => Ok(()),
            false => Err(format!("unread, {number}: {taken:?}, or other words")),
        }
    }
}

/// The first row that differs.
fn differing(ours: &Kept, coded: &Kept) -> String {
    for slot in 0..SLOTS {
        let (ours, coded) = (&ours.slots[slot], &coded.slots[slot]);
        if let Some(row) = (0..ours.len()).find(|&row| ours[row] != coded[row]) {
            let (ours, coded) = (ours[row], coded[row]);
            return format!("slot {slot}, row {row}: ours {ours:x?}, the encoder's {coded:x?}");
        }
    }
    "other settings".to_string()
}

/// A list on words that no record wrote: a second copy answers the same, by the event's words; the encoder's words of
/// the same record answer the same, and stay the encoder's for what the others say; and words stay, by `kept_words`.
fn strange_run(tally: &mut Tally, list: &List, rng: &mut Rng) -> Result<(), String> {
    let (words, first) = strange::words(list, rng);
    let mut second = Box::new(Guarded::new(words.clone()));
    let mut coded = Box::new(Guarded::new(normal(&words)));
    let mut before = words.clone();
    let mut ours = Box::new(Guarded::new(words));
    for (n, event) in list.events.iter().enumerate().skip(first) {
        let event = strange::aimed(*event, &before, rng);
        let reply = ours.kept.event(&event);
        let told = reply_in(second.kept.words(&words_of(&event, n as u8)));
        let replies = [told, coded.kept.event(&event)];
        let fail = |what: &str| Err(format!("strange words, event {}, {event:?}: {what}", n + 1));
        if replies != [reply; 2] {
            return fail(&format!("{reply:?} and {replies:?}"));
        }
        if ours.kept != second.kept {
            return fail("other words in the second copy");
        }
        if normal(&ours.kept) != coded.kept {
            return fail(&differing(&normal(&ours.kept), &coded.kept));
        }
        if !kept_words(&before, &ours.kept, &event, reply) {
            return fail("a word that must stay is another");
        }
        strange_standing(&ours.kept, &coded.kept, event.slot)?;
        let rows = before.slots.get(usize::from(event.slot));
        let was_coded = rows.is_none_or(|rows| normal_rows(rows) == *rows);
        tally.strange.count(event.kind, reply.number, was_coded);
        before.clone_from(&ours.kept);
    }
    match ours.whole() && second.whole() && coded.whole() {
        true => Ok(()),
        false => Err("strange words: a word beside the record is another".to_string()),
    }
}

/// Whether the words that an event leaves are as they were: the settings and those of every other slot; all by a
/// refusal and by a choose.
fn kept_words(before: &Kept, after: &Kept, event: &Event, reply: Reply) -> bool {
    let none = reply.number != 0 || event.kind == CHOOSE;
    let stays = |slot: usize| {
        !none && slot == usize::from(event.slot) || before.slots[slot] == after.slots[slot]
    };
    before.settings == after.settings && (0..SLOTS).all(stays)
}

/// The standing is that of the encoder's words.
fn strange_standing(ours: &Kept, coded: &Kept, slot: u8) -> Result<(), String> {
    let mut out = [[0; STANDING]; 2];
    let replies = [
        ours.standing(slot, &mut out[0]),
        coded.standing(slot, &mut out[1]),
    ];
    match replies[0] == replies[1] && out[0] == out[1] {
        true => Ok(()),
        false => Err(format!("strange words, slot {slot}: {replies:?}")),
    }
}
