//! Nanoseconds an event: ours on a record in words, one C call each, by a pointer to the event's words
//! and by ten numbers; the Rust's record in place, with the same refusals, by its own method, which gets a
//! pointer to an event, and behind a C call with the same numbers; and whole files: ours through
//! `hess_events`, which goes over a file twice, the Rust's record over the same bytes in one pass.

#[allow(dead_code)]
mod aims;
#[allow(dead_code)]
mod calls;
#[allow(dead_code)]
mod clib;
#[allow(dead_code)]
mod events;
#[allow(dead_code)]
mod filed;
#[allow(dead_code)]
mod kept;
#[allow(dead_code)]
mod ours;
mod papers;
mod random;

use clib::Reply;
use events::{
    ANSWER, CHOOSE, FOLD, FRESH, HEAR, JUDGE, OPEN, POLL, PROBE, PROVE, SAMPLE, SEARCH, SWEEP,
    THAW, words_of,
};
use filed::Filed;
use kept::Kept;
use oracle::proto::path::eventfile::{self, Next, record_at};
use oracle::proto::path::record::{Event, Record, SLOTS};
use ours::Ours;
use std::hint::black_box;
use std::time::Instant;

/// Events in a list, and runs of which the median is taken. A run is as many lists as take the Rust's
/// record five milliseconds, and its time that of its median list, since some are broken into by
/// other jobs.
const EVENTS: usize = 500;
const RUNS: usize = 9;
const SPAN: f64 = 5e6;
const SECOND: u64 = 1_000_000_000;
/// Cap, gap, window, horizon.
const SETTINGS: [u64; 4] = [100, SECOND, 1 << 60, 60 * SECOND];

/// What is repeated: the events of a turn by its number and the next identifier.
type Turn = fn(u64, u32) -> Vec<Event>;

/// An event on slot 0.
fn of(kind: u8, fields: [u64; 6]) -> Event {
    Event::of(kind, 0, fields)
}

/// A probe at an instant, due so much later.
fn probe(at: u64, wait: u64) -> Event {
    of(PROBE, [at, at + wait, 7, 100, 0, 0])
}

fn answer(at: u64, id: u32, acked: u64) -> Event {
    of(ANSWER, [at, 0, id.into(), 0, acked, 0])
}

fn poll(at: u64) -> Event {
    of(POLL, [at, 0, 0, 0, 0, 0])
}

/// Four things that a path begins a turn of a search with: an instant, the proven size and the search.
fn search(n: u64) -> Vec<Event> {
    let at = (n + 1) * 4 * SECOND;
    vec![
        of(PROVE, [0, 0, 0, 100, 0, 0]),
        of(SEARCH, [at, 0, 7, 0, 0, 0]),
    ]
}

/// What each row repeats.
fn turns() -> [(&'static str, Turn); 15] {
    [
        ("probe, answer", |n, id| {
            vec![probe(9 * n, 4), answer(9 * n + 1, id, 100)]
        }),
        ("8 probes, 8 answers", |n, id| {
            let probes = [probe(9 * n, 4); 8];
            let answers = (0..8).map(|k| answer(9 * n + 1, id + k, 100));
            probes.into_iter().chain(answers).collect()
        }),
        ("probe, poll (lapse)", |n, _| {
            vec![probe(9 * n, 4), poll(9 * n + 4)]
        }),
        ("probe, data, poll (deferral), poll (lapse)", |n, _| {
            let at = 900 * n;
            let data = of(HEAR, [at + 1, 0, 0, 100, 0, 0]);
            vec![probe(at, 4), data, poll(at + 4), poll(at + 300)]
        }),
        ("poll (nothing waits)", |n, _| vec![poll(n)]),
        ("data", |n, _| vec![of(HEAR, [n, 0, 0, 100, 0, 0])]),
        ("sample (32 in the window)", |n, _| {
            vec![of(SAMPLE, [n * 100_000_000, 7, 0, 0, 0, 0])]
        }),
        ("fold", |n, _| vec![of(FOLD, [0, 0, 0, 0, 0, n % 2])]),
        ("prove", |n, _| {
            vec![of(PROVE, [0, 0, 0, 100 + n % 9, 0, 0])]
        }),
        ("prove, search, answer (search)", |n, id| {
            let mut all = search(n);
            all.push(answer((n + 1) * 4 * SECOND + 1, id, 1_200));
            all
        }),
        (
            "prove, search, probe, answer, judge (lost), fresh",
            |n, id| {
                let at = (n + 1) * 4 * SECOND;
                let mut all = search(n);
                all.extend([
                    probe(at, 4),
                    answer(at + 1, id + 1, 100),
                    of(JUDGE, [at + SECOND, 9, 0, 0, 0, 0]),
                    of(FRESH, [0; 6]),
                ]);
                all
            },
        ),
        ("fresh", |_, _| vec![of(FRESH, [0; 6])]),
        ("thaw", |_, _| vec![of(THAW, [0; 6])]),
        ("4 probes, sweep", |n, _| {
            let mut all = vec![probe(9 * n, 4); 4];
            all.push(of(SWEEP, [0; 6]));
            all
        }),
        ("choose (8 paths, 32 samples each)", |_, _| {
            vec![of(CHOOSE, [0, 1.3f64.to_bits(), 0, 0, 0, 0])]
        }),
    ]
}

/// Opens all slots; where a choice is to be made, each gets 32 samples.
fn opened(sampled: bool) -> Vec<Event> {
    let mut all = Vec::new();
    for slot in 0..SLOTS as u8 {
        all.push(Event::of(OPEN, slot, [0, 0, 0, 1_200, 0, 0x68]));
        for n in 0..32 * u64::from(sampled) {
            let rtt = 1_000_000 * (9 + u64::from(slot)) + n;
            all.push(Event::of(SAMPLE, slot, [n * 1_000, rtt, 0, 0, 0, 0]));
        }
    }
    all
}

/// The list of a row: what comes before the clock, and the events in the time. None may be refused.
fn list(name: &str, turn: Turn) -> (Vec<Event>, Vec<Event>) {
    let before = opened(name.starts_with("choose"));
    let mut record = Record::new(SETTINGS).expect("allowed settings");
    for event in &before {
        assert_eq!(record.event(event).0, 0, "refused: {name}");
    }
    let mut all = Vec::new();
    let mut id = 7;
    for n in 0.. {
        let events = turn(n, id);
        if all.len() + events.len() > EVENTS {
            break;
        }
        for event in &events {
            assert_eq!(record.event(event).0, 0, "refused: {name}, {event:?}");
            id += u32::from([PROBE, SEARCH].contains(&event.kind));
        }
        all.extend(events);
    }
    (before, all)
}

fn main() {
    println!();
    println!(
        "| Events | by its words, ns an event | the Rust's method | ratio | by numbers | the Rust's over C | ratio | to the method | a file by `hess_events` | the Rust's, one pass | ratio |"
    );
    println!("|---|---|---|---|---|---|---|---|---|---|---|");
    for (name, turn) in turns() {
        let (before, events) = list(name, turn);
        let all = times(&before, &events);
        let side = |n: usize| median(all.iter().map(|run| run[n]).collect());
        let ratio = |n: usize, m: usize| median(all.iter().map(|run| run[n] / run[m]).collect());
        println!(
            "| {name} | {:.1} | {:.1} | {:.2} | {:.1} | {:.1} | {:.2} | {:.2} | {:.1} | {:.1} | {:.2} |",
            side(WORDS),
            side(METHOD),
            ratio(WORDS, METHOD),
            side(NUMBERS),
            side(OVER_C),
            ratio(NUMBERS, OVER_C),
            ratio(NUMBERS, METHOD),
            side(FILE),
            side(PASS),
            ratio(FILE, PASS)
        );
    }
    println!();
    println!("A record in words: {} bytes.", Kept::size());
}

/// The Rust's record as C would call it: a number for each field of an event, number and value back.
#[unsafe(no_mangle)]
#[inline(never)]
#[allow(clippy::too_many_arguments)]
extern "C" fn rust_record_event(
    record: &mut Record,
    kind: u8,
    slot: u8,
    flags: u8,
    now: u64,
    span: u64,
    id: u32,
    len: u32,
    acked: u32,
) -> Reply {
    let event = Event {
        kind,
        slot,
        now,
        span,
        id,
        len,
        acked,
        flags,
    };
    let (number, value) = record.event(&event);
    Reply { number, value }
}

/// One event of the Rust's record over C.
#[inline]
fn over_c(record: &mut Record, e: &Event) -> u64 {
    let fields = (e.kind, e.slot, e.flags, e.now, e.span, e.id, e.len, e.acked);
    let (kind, slot, flags, now, span, id, len, acked) = fields;
    rust_record_event(record, kind, slot, flags, now, span, id, len, acked).value
}

/// The value in an answer of one word.
#[inline]
fn value_in(answer: u64) -> u64 {
    answer & 0xffff_ffff
}

/// An event's words, where they do not lie in two lines of the processor's cache.
#[repr(align(32))]
#[derive(Clone, Copy)]
struct Words([u64; 4]);

/// The sides of a run: ours by words, the Rust's by its own method, ours by numbers, the Rust's over C, ours over
/// a file, the Rust's over the same file.
const WORDS: usize = 0;
const METHOD: usize = 1;
const NUMBERS: usize = 2;
const OVER_C: usize = 3;
const FILE: usize = 4;
const PASS: usize = 5;

/// Nanoseconds an event of each side in each run, the sides in turn.
fn times(before: &[Event], events: &[Event]) -> Vec<[f64; 6]> {
    let mut words = Kept::filled(|| 0);
    let mut rust = Record::new(SETTINGS).expect("allowed settings");
    assert_eq!(words.renew(SETTINGS).number, 0);
    for event in before {
        let reply = words.event(event);
        assert_eq!((reply.number, reply.value), rust.event(event));
    }
    let coded: Vec<Words> = events.iter().map(|e| Words(words_of(e, 0))).collect();
    let file = Filed::new(SETTINGS, [before, events].concat(), || 0);
    let mut ours = Ours::default();
    let mut made = Vec::new();
    let mut all = Vec::new();
    let mut lists = 1;
    for n in 0..=RUNS {
        let (a, sum) = run(lists, &coded, &words, |words, e| {
            value_in(words.words(&e.0))
        });
        let (b, same) = run(lists, events, &rust, |rust, e| rust.event(e).1);
        let (c, also) = run(lists, events, &words, |words, e| words.event(e).value);
        let (d, over) = run(lists, events, &rust, over_c);
        assert!(
            [same, also, over] == [sum; 3],
            "ours differs from the Rust's"
        );
        let e = median((0..lists).map(|_| by_file(&mut ours, &file)).collect());
        let f = median((0..lists).map(|_| one_pass(&mut made, &file)).collect());
        let lent = lent_for(&file);
        let (_, out) = ours.run(&file.bytes, lent).expect("a whole file");
        assert!(out.starts_with(&made), "ours differs from the Rust's");
        // The first run only says how many lists the others have.
        if n == 0 {
            lists = 1 + (SPAN / (b * events.len() as f64)) as usize;
            continue;
        }
        all.push([a, b, c, d, e, f]);
    }
    all
}

/// Nanoseconds an event in the median of so many lists, each from a copy made before the clock starts,
/// and what the values come to.
fn run<S: Clone, E>(
    lists: usize,
    events: &[E],
    start: &S,
    event: impl Fn(&mut S, &E) -> u64,
) -> (f64, u64) {
    let (mut times, mut sum) = (Vec::new(), 0);
    for _ in 0..lists {
        let mut state = black_box(start.clone());
        let clock = Instant::now();
        for e in events {
            sum += event(&mut state, black_box(e));
        }
        times.push(clock.elapsed().as_nanos() as f64 / events.len() as f64);
        black_box(&state);
    }
    (median(times), sum)
}

/// The bytes that a file's answers and standings may take.
fn lent_for(file: &Filed) -> usize {
    16 * file.events.len() + SLOTS * 52
}

/// Nanoseconds an event of a whole file through `hess_events`.
fn by_file(ours: &mut Ours, file: &Filed) -> f64 {
    let clock = Instant::now();
    let (reply, _) = ours
        .run(&file.bytes, lent_for(file))
        .expect("a whole file");
    let time = clock.elapsed().as_nanos() as f64;
    assert_eq!(reply.number, 0);
    time / file.events.len() as f64
}

/// Nanoseconds an event of the Rust's record over the same bytes: each record is read, run and its answer
/// written in one pass, then the standings.
fn one_pass(out: &mut Vec<u8>, file: &Filed) -> f64 {
    let clock = Instant::now();
    out.clear();
    out.reserve(lent_for(file));
    let mut record = eventfile::opened(&file.bytes).expect("allowed settings");
    let mut rest = &file.bytes[32..];
    while let Next::Event(event, len) = record_at(rest) {
        let (number, value) = record.event(&event);
        out.extend_from_slice(&number.to_le_bytes());
        out.extend_from_slice(&value.to_le_bytes());
        rest = &rest[len..];
    }
    record.put_standings(out);
    clock.elapsed().as_nanos() as f64 / file.events.len() as f64
}

fn median(mut times: Vec<f64>) -> f64 {
    times.sort_by(f64::total_cmp);
    times[times.len() / 2]
}
