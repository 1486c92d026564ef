//! What is compared of whole lists, on two threads; what came of it.

use crate::beginnings::{Tally, Worker};
use crate::clauses::{CLAUSES, Checker, Tried};
use crate::damage::damaged;
use crate::events::{List, THEMES, fitted};
use crate::filed::Filed;
use crate::papers;
use crate::random::Rng;
use crate::smaller;
use crate::wording::words;
use oracle::proto::path::eventfile::{SETTINGS, events_in, opened, output_of};
use oracle::proto::path::record::{Event, Record};
use oracle::proto::path::script::word;
use std::collections::BTreeMap;
use std::sync::Mutex;
use std::sync::atomic::{AtomicUsize, Ordering};
use std::time::Instant;

/// Threads; lists of 20 to 80 events, all their beginnings; the events that these must have.
const THREADS: usize = 2;
const LISTS: usize = 71_000;
const EVENTS: u64 = 2_000_000;
/// Lists of some hundred events, the last beginnings of them; lists of thousands, some beginnings.
const MIDDLE: usize = 1_000;
const LAST: usize = 12;
const LONG: usize = 30;
/// Files of which every cut is compared, and damaged files.
const CUTS: usize = 60;
const DAMAGED: usize = 100_000;
/// Lists in which a fault's own clauses are looked for.
const CHECKED: usize = 3_000;
/// Runs that a difference is made smaller in.
const TRIES: usize = 10_000;
const SEED: u64 = 800;

/// One piece of the work by its number; the pieces of a part.
type Piece = fn(&mut Worker, &mut Counts, usize) -> Result<(), Failure>;
type Counts = BTreeMap<String, u64>;

/// Where ours differs.
struct Failure {
    what: String,
    /// The list, if it is one that can be made smaller.
    filed: Option<Filed>,
    bytes: Vec<u8>,
}

/// Compare everything, then say what was compared.
pub fn compare() {
    let start = Instant::now();
    let mut tally = Tally::default();
    let mut counts = Counts::new();
    let parts: [(usize, Piece); 6] = [
        (papers::lists().len(), paper),
        (CUTS, cut),
        (DAMAGED / 100, damage),
        (LISTS, list),
        (MIDDLE, middle),
        (LONG, long),
    ];
    for (pieces, piece) in parts {
        let (more, found) = shared(pieces, piece);
        tally.add(more);
        add(&mut counts, found);
    }
    print(&tally, &counts);
    println!(
        "no difference in lists; {:.1} seconds",
        start.elapsed().as_secs_f64()
    );
    let missing = missing(&tally, &counts);
    if !missing.is_empty() {
        println!("never reached: {missing:?}");
        std::process::exit(1);
    }
}

/// Pieces of work on all threads. The first failure ends the program.
fn shared(pieces: usize, piece: Piece) -> (Tally, Counts) {
    let next = AtomicUsize::new(0);
    let failed = Mutex::new(());
    let work = || {
        let mut worker = Worker::default();
        let mut counts = Counts::new();
        loop {
            let n = next.fetch_add(1, Ordering::Relaxed);
            if n >= pieces {
                return (worker.tally, counts);
            }
            if let Err(failure) = piece(&mut worker, &mut counts, n) {
                let _one = failed.lock();
                report(failure);
            }
        }
    };
    std::thread::scope(|scope| {
        let threads: Vec<_> = (0..THREADS).map(|_| scope.spawn(work)).collect();
        let mut tally = Tally::default();
        let mut counts = Counts::new();
        for thread in threads {
            let (more, found) = thread.join().expect("a thread ends");
            tally.add(more);
            add(&mut counts, found);
        }
        (tally, counts)
    })
}

fn add(counts: &mut Counts, more: Counts) {
    for (what, count) in more {
        *counts.entry(what).or_default() += count;
    }
}

fn failure(filed: &Filed) -> impl FnOnce(String) -> Failure {
    |what| Failure {
        what,
        filed: Some(filed.clone()),
        bytes: Vec::new(),
    }
}

/// One of the papers' lists.
fn paper(worker: &mut Worker, _: &mut Counts, n: usize) -> Result<(), Failure> {
    let filed = Filed::of(&papers::lists()[n], n as u64);
    worker.list(&filed, 0).map_err(failure(&filed))
}

/// A list of a theme by its number.
fn made(n: usize, seed: u64, len: impl FnOnce(&mut Rng) -> u64) -> Filed {
    let mut rng = Rng::new(SEED.wrapping_add(seed << 32).wrapping_add(n as u64));
    let theme = &THEMES[n % THEMES.len()];
    let len = len(&mut rng) as usize;
    Filed::of(&theme.filed(rng.next(), len), rng.next())
}

/// 20 to 34 events, one list in sixteen up to 80.
fn short(rng: &mut Rng) -> u64 {
    match rng.below(16) {
        0 => 35 + rng.below(46),
        _ => 20 + rng.below(15),
    }
}

/// A short list at all its beginnings; then too few bytes for it.
fn list(worker: &mut Worker, _: &mut Counts, n: usize) -> Result<(), Failure> {
    let filed = made(n, 0, short);
    worker.list(&filed, 0).map_err(failure(&filed))?;
    if n % 4 != 0 {
        return Ok(());
    }
    let needs = output_of(&filed.bytes).map_or(0, |made| made.len());
    let some = Rng::new(n as u64).below(needs as u64) as usize;
    for lent in [needs - 1, some, 0] {
        worker.lent(&filed.bytes, lent).map_err(failure(&filed))?;
    }
    Ok(())
}

/// Some hundred events, and the last beginnings.
fn middle(worker: &mut Worker, _: &mut Counts, n: usize) -> Result<(), Failure> {
    let filed = made(n, 1, |rng| 150 + rng.below(250));
    let from = filed.events.len() - LAST;
    worker.list(&filed, from).map_err(failure(&filed))
}

/// Thousands of events, and the last beginnings.
fn long(worker: &mut Worker, _: &mut Counts, n: usize) -> Result<(), Failure> {
    let filed = made(n, 2, |rng| 2_000 + rng.below(4_000));
    let from = filed.events.len() - LAST;
    worker.list(&filed, from).map_err(failure(&filed))
}

/// Any bytes; what came of them is counted.
fn file(worker: &mut Worker, counts: &mut Counts, part: &str, bytes: &[u8]) -> Result<(), Failure> {
    let number = worker.file(bytes).map_err(|what| Failure {
        what,
        filed: as_list(bytes),
        bytes: bytes.to_vec(),
    })?;
    *counts
        .entry(format!("{part}, number {number}"))
        .or_default() += 1;
    Ok(())
}

/// A file whose records can all be read, as a list.
fn as_list(bytes: &[u8]) -> Option<Filed> {
    opened(bytes).ok()?;
    let settings = core::array::from_fn(|n| word(bytes, n));
    let events = events_in(&bytes[SETTINGS..]).ok()?;
    Some(Filed::new(settings, events, || 0))
}

/// Every cut of a file.
fn cut(worker: &mut Worker, counts: &mut Counts, n: usize) -> Result<(), Failure> {
    let filed = made(n, 3, short);
    for end in 0..=filed.bytes.len() {
        file(worker, counts, "cut files", &filed.bytes[..end])?;
    }
    Ok(())
}

/// A hundred damaged files of one list.
fn damage(worker: &mut Worker, counts: &mut Counts, n: usize) -> Result<(), Failure> {
    let filed = made(n, 4, |rng| 1 + rng.below(40));
    let mut rng = Rng::new(SEED + n as u64);
    for _ in 0..100 {
        file(worker, counts, "damaged files", &damaged(&filed, &mut rng))?;
    }
    Ok(())
}

/// What should have been tried and was not.
fn missing(tally: &Tally, counts: &Counts) -> Vec<String> {
    let mut all = tally.reach.missing();
    for number in [0, 6, 13, 14, 15] {
        let name = format!("damaged files, number {number}");
        if !counts.contains_key(&name) {
            all.push(name);
        }
    }
    let tried = tally.tried.counts.iter();
    // These count breaches, and what never is.
    let none = tried.filter(|(_, count)| **count == 0);
    all.extend(none.map(|(what, _)| what.to_string()));
    if tally.events < EVENTS {
        all.push(format!("{EVENTS} events"));
    }
    all
}

fn print(tally: &Tally, counts: &Counts) {
    println!(
        "{} events in {} lists with the standings after each ({} standings, {} calls of ours with {} \
         events); {} replies; {} calls with too few lent bytes",
        tally.events,
        tally.lists,
        tally.standings,
        tally.calls,
        tally.steps,
        tally.replies,
        tally.lent
    );
    for (what, count) in counts {
        println!("  {what}: {count}");
    }
    println!("  what the lists reach:");
    tally.reach.print();
    print_tried(&tally.tried);
}

fn print_tried(tried: &Tried) {
    println!("demand 3's clauses were tried on:");
    for (what, count) in &tried.counts {
        println!("  {what}: {count}");
    }
    println!("  most search probes from a start on: {}", tried.most);
}

/// Print what differs, as small as it could be made, and end.
fn report(failure: Failure) -> ! {
    let Some(filed) = failure.filed else {
        println!("a file: {}", failure.what);
        println!("{}", words(&failure.bytes));
        std::process::exit(1)
    };
    let settings = filed.settings;
    let first = difference(settings, &filed.events);
    println!("{}", first.unwrap_or(failure.what));
    let rows = filed.events.iter().map(row).collect();
    let fails = |rows: &[Row]| difference(settings, &events(rows)).is_some();
    let least = events(&smaller::smallest(rows, TRIES, without, fails));
    println!("the smallest that differs, {} events:", least.len());
    println!("{}", words(&Filed::new(settings, least, || 0).bytes));
    std::process::exit(1)
}

/// An event's fields as words.
type Row = [u64; 8];

fn row(e: &Event) -> Row {
    let [now, span, id, len, acked, flags] = e.fields();
    let (kind, slot) = (e.kind.into(), e.slot.into());
    [kind, slot, now, span, id, len, acked, flags]
}

/// Events as a file can hold them.
fn events(rows: &[Row]) -> Vec<Event> {
    let event = |row: &Row| {
        let [kind, slot, fields @ ..] = *row;
        fitted(&Event::of(kind as u8, slot as u8, fields), 12)
    };
    rows.iter().map(event).collect()
}

/// Rows without one, the identifiers that later answers name lowered.
fn without(rows: &[Row], n: usize, by: u64) -> Vec<Row> {
    let mut fewer = rows.to_vec();
    fewer.remove(n);
    for row in fewer[n..].iter_mut().filter(|row| row[0] == 3) {
        row[4] = row[4].wrapping_sub(by);
    }
    fewer
}

/// How ours differs from the Rust's at a list's end, if it does.
fn difference(settings: [u64; 4], events: &[Event]) -> Option<String> {
    let filed = Filed::new(settings, events.to_vec(), || 0);
    let mut worker = Worker::default();
    let mut record = Record::new(settings).expect("allowed settings");
    let rust: Vec<_> = events.iter().map(|e| record.event(e)).collect();
    let ours = match worker.replies(&filed) {
        Ok(ours) => ours,
        Err(what) => return Some(what),
    };
    if let Some(n) = (0..rust.len()).find(|&n| rust[n] != ours[n]) {
        let (rust, ours) = (rust[n], ours[n]);
        return Some(format!(
            "event {}: ours {ours:?}, the Rust's {rust:?}",
            n + 1
        ));
    }
    let what = worker.file(&filed.bytes).err()?;
    Some(format!("the standings after the last event: {what}"))
}

/// Demand 3's clauses over the Rust's own record; which are broken, how often, and how first.
pub fn clauses() {
    let mut tried = Tried::default();
    let lists = papers::lists();
    let papers = lists.iter().map(|list: &List| Filed::of(list, 0));
    let made = (0..CHECKED).map(|n| made(n, 5, |rng| 20 + rng.below(100)));
    for filed in papers.chain(made) {
        let mut checker = Checker::new(filed.settings, &mut tried);
        let mut record = Record::new(filed.settings).expect("allowed settings");
        for event in &filed.events {
            let reply = record.event(event);
            checker.event(event, reply);
            let image = record.image(usize::from(event.slot) % 8);
            checker.image(event, reply.0 == 0, image.as_ref());
        }
    }
    for clause in CLAUSES {
        if let Some((count, why)) = tried.broken.get(&clause) {
            println!("clause {clause:?}: {count}: {why}");
        }
    }
}
