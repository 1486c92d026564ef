//! Lists of events that document 01 names or that show one of its sentences alone: its five lines,
//! its table's smallest examples, two conditions at once, a search to its end. Behind them those of
//! document 02.

use crate::events::{
    ANSWER, CHOOSE, CLOSE, FOLD, FRESH, HEAR, JUDGE, List, OPEN, POLL, PROBE, PROVE, SAMPLE,
    SEARCH, SWEEP, THAW,
};
use oracle::proto::path::record::Event;

const SECOND: u64 = 1_000_000_000;
const MS: u64 = 1_000_000;
const LONG: u64 = 1 << 62;

/// Every list.
pub fn lists() -> Vec<List> {
    let mut all = vec![
        ("five lines", [SECOND; 4], five()),
        ("each refusal", [SECOND; 4], refusals()),
        ("two conditions", [SECOND; 4], orders()),
        ("eight waiting", [SECOND; 4], eight()),
        ("late holes", [SECOND; 4], holes()),
        ("deferral", [10, 0, 0, 0], deferral()),
        ("last data instant", [10, 0, 0, 0], last_data()),
        ("overdue", [0; 4], overdue()),
        ("thaw", [0; 4], thawed()),
        ("opened again", [SECOND; 4], again()),
        ("acknowledged", [0, SECOND, 0, 0], search(65_535, 65_535)),
        ("lost", [0, SECOND, 0, 0], search(65_535, 27)),
        ("halves", [0, SECOND, 0, 0], search(65_535, 1500)),
        ("rest by prove", [0, 0, 0, 0], rest()),
        ("figures 7 and 8", [0; 4], figures()),
        ("media", [SECOND; 4], media()),
        ("tiers and pins", [SECOND; 4], tiers()),
        ("window", [5, 5, 5, 600], window()),
        ("32 samples", [0, 0, LONG - 1, 5], samples()),
        ("ETX at its limits", [SECOND; 4], limits()),
        ("long settings", [LONG - 1; 4], long()),
        ("answered before", [0, SECOND, 0, 0], answered_before()),
        ("due before sent", [SECOND; 4], before_sent()),
        ("dues behind", [SECOND; 4], behind()),
    ];
    all.drain(..)
        .map(|(name, settings, events)| List {
            theme: "papers",
            name: name.to_string(),
            settings,
            events,
        })
        .collect()
}

/// An event with nothing but its kind and slot.
fn bare(kind: u8, slot: u8) -> Event {
    Event {
        kind,
        slot,
        ..Event::default()
    }
}

fn open(slot: u8, len: u32, flags: u8) -> Event {
    Event {
        len,
        flags,
        ..bare(OPEN, slot)
    }
}

fn probe(now: u64, span: u64, id: u32, len: u32) -> Event {
    Event {
        now,
        span,
        id,
        len,
        ..bare(PROBE, 0)
    }
}

fn answer(now: u64, id: u32, acked: u32) -> Event {
    Event {
        now,
        id,
        acked,
        ..bare(ANSWER, 0)
    }
}

fn poll(now: u64, flags: u8) -> Event {
    Event {
        now,
        flags,
        ..bare(POLL, 0)
    }
}

fn sample(slot: u8, now: u64, span: u64) -> Event {
    Event {
        now,
        span,
        ..bare(SAMPLE, slot)
    }
}

fn fold(slot: u8, flags: u8) -> Event {
    Event {
        flags,
        ..bare(FOLD, slot)
    }
}

fn prove(len: u32) -> Event {
    Event {
        len,
        ..bare(PROVE, 0)
    }
}

fn seek(now: u64, id: u32) -> Event {
    Event {
        now,
        id,
        ..bare(SEARCH, 0)
    }
}

fn judge(now: u64, span: u64) -> Event {
    Event {
        now,
        span,
        ..bare(JUDGE, 0)
    }
}

fn data(now: u64, len: u32) -> Event {
    Event {
        now,
        len,
        ..bare(HEAR, 0)
    }
}

fn choose(margin: f64) -> Event {
    Event {
        span: margin.to_bits(),
        ..bare(CHOOSE, 255)
    }
}

fn five() -> Vec<Event> {
    let (first, last) = (answer(0, 7, 0), choose(1.0));
    vec![open(0, 100, 32), probe(0, 9, 7, 0), first, first, last]
}

/// The table's smallest examples, in its order, 12 to 14 and 16 being no event's; 23 stands where a probe
/// is tried for it, before 8.
fn refusals() -> Vec<Event> {
    let mut all = vec![bare(CLOSE, 8), bare(CLOSE, 0)];
    all.extend([open(0, 100, 0), open(0, 100, 0), poll(0, 2)]);
    all.extend([prove(26), sample(0, 0, LONG), choose(0.5)]);
    all.push(probe(5, 4, 7, 0));
    all.extend((0..9).map(|_| probe(0, 5, 7, 0)));
    all.extend([answer(0, 5, 0), seek(0, 0), bare(CLOSE, 0)]);
    all.extend([choose(1.0), bare(16, 0), bare(0, 0)]);
    all
}

/// Two conditions at once: the lower number comes, 15 first.
fn orders() -> Vec<Event> {
    let far = |event: Event| Event { slot: 8, ..event };
    let mut all = vec![bare(16, 8), far(open(0, 26, 128)), poll(0, 2)];
    all.extend([open(0, 26, 128), open(0, 26, 127), open(0, 65_536, 0)]);
    all.extend([open(0, 65_535, 127), open(0, 26, 128), open(0, 27, 0)]);
    all.extend([fold(0, 2), fold(0, 255), fold(0, 1), poll(0, 255)]);
    all.extend([judge(0, LONG), judge(0, LONG - 1), sample(0, 0, u64::MAX)]);
    all.extend((0..8).map(|_| probe(0, 5, 7, 65_535)));
    all.extend([
        probe(0, 5, 7, 65_536),
        probe(0, 5, 7, 0),
        probe(0, LONG, 7, 0),
    ]);
    all.extend([
        answer(0, 5, 65_536),
        answer(0, 5, 65_535),
        data(0, 65_536),
        data(0, 65_535),
    ]);
    all.extend([
        choose(f64::NAN),
        choose(f64::INFINITY),
        choose(0.9999999999999999),
    ]);
    all.extend([bare(CLOSE, 0), choose(f64::MAX), choose(-1.0), choose(0.0)]);
    all
}

/// Eight waiting, answers out of order, a sweep whose last four stay.
fn eight() -> Vec<Event> {
    let mut all = vec![open(0, 100, 0)];
    all.extend((0..9).map(|n| probe(n, 9, 7, 0)));
    all.extend([
        answer(5, 9, 0),
        answer(5, 9, 0),
        answer(5, 7, 0),
        probe(9, 20, 0, 0),
    ]);
    all.extend([bare(SWEEP, 0), bare(SWEEP, 0), poll(99, 0)]);
    all.extend((7..17).map(|id| answer(5, id, 0)));
    all
}

/// A hole in the late list is not filled first: the next lapse pushes out the oldest.
fn holes() -> Vec<Event> {
    let mut all = vec![open(0, 100, 0)];
    all.extend((0..4).map(|_| probe(0, 1, 10, 0)));
    all.extend([poll(1, 0), answer(1, 11, 0), probe(1, 2, 0, 0), poll(2, 0)]);
    all.extend([
        answer(2, 10, 0),
        answer(2, 12, 0),
        answer(2, 13, 0),
        answer(2, 14, 0),
    ]);
    all.extend((0..8).map(|_| probe(2, 3, 0, 0)));
    all.push(poll(3, 0));
    all.extend((15..23).map(|id| answer(3, id, 0)));
    all
}

/// Data after the probe defers it to its cap deadline, and no further.
fn deferral() -> Vec<Event> {
    let mut all = vec![
        open(0, 100, 0),
        probe(0, 5, 7, 0),
        probe(1, 4, 7, 0),
        data(1, 0),
    ];
    all.extend([
        poll(3, 0),
        poll(4, 1),
        poll(4, 0),
        poll(9, 0),
        poll(10, 1),
        poll(10, 0),
    ]);
    all.extend([
        answer(10, 7, 0),
        answer(10, 8, 0),
        probe(20, 25, 0, 0),
        data(21, 0),
    ]);
    all.extend([poll(29, 0), data(30, 0), poll(30, 0), answer(30, 9, 0)]);
    all
}

fn last_data() -> Vec<Event> {
    vec![
        open(0, 100, 0),
        probe(5, 6, 7, 0),
        data(7, 0),
        data(3, 0),
        poll(6, 0),
    ]
}

fn overdue() -> Vec<Event> {
    vec![open(0, 100, 0), probe(0, 0, 7, 0), poll(0, 1), poll(0, 0)]
}

/// A poll's value is all lapses, not the misses that count.
fn thawed() -> Vec<Event> {
    let (thaw, fresh) = (bare(THAW, 0), bare(FRESH, 0));
    let first = [open(0, 100, 0), probe(0, 1, 7, 100), thaw, poll(1, 0)];
    let then = [probe(1, 2, 0, 100), fresh, probe(1, 2, 0, 28), poll(2, 0)];
    first.into_iter().chain(then).collect()
}

/// An identifier is answered in time once since its open.
fn again() -> Vec<Event> {
    let one = [
        open(0, 100, 0),
        probe(0, 9, 7, 0),
        answer(0, 7, 0),
        bare(CLOSE, 0),
    ];
    one.repeat(2)
}

/// A search from 27 to its end on a link that carries some sizes, and past the 600 s.
fn search(full: u32, carries: u32) -> Vec<Event> {
    let mut all = vec![open(0, full, 0), seek(0, 5), prove(27)];
    let (mut proven, mut lost, mut id) = (27, 0, 5);
    for n in 0..14 {
        let now = n * SECOND;
        all.extend([seek(now, 5), seek(now, 5), judge(now, 0)]);
        let out = match lost {
            0 => full,
            _ => proven + (lost - proven) / 2,
        };
        if out <= carries {
            all.push(answer(now, id, out));
            (proven, id) = (out, id + 1);
        } else {
            let answers = [probe(now, now + SECOND, 5, 0), answer(now, id + 1, 0)];
            all.extend(answers);
            all.extend([judge(now, 1), judge(now, 0), answer(now, id, out)]);
            (lost, id) = (out, id + 2);
        }
    }
    let ends = (10..14).map(|n| n * SECOND + 600 * SECOND);
    all.extend(ends.flat_map(|end| [seek(end - 1, 5), seek(end, 5)]));
    all
}

/// A prove that leaves the lost size near: no proposal, and none after 600 s either.
fn rest() -> Vec<Event> {
    let mut all = vec![open(0, 1000, 0), prove(27), seek(0, 1), probe(0, 9, 1, 0)];
    all.extend([answer(0, 2, 0), judge(0, 0), prove(968), seek(1, 1)]);
    all.extend([
        seek(601 * SECOND, 1),
        prove(967),
        seek(1, 1),
        answer(1, 3, 982),
    ]);
    all.extend([
        seek(2, 1),
        seek(2 + 600 * SECOND, 1),
        bare(FRESH, 0),
        seek(3, 1),
    ]);
    all
}

/// Proven 100: 132 lost is rest, 133 lost goes on with 116.
fn figures() -> Vec<Event> {
    let lost = |full: u32| {
        let first = [open(0, full, 0), prove(100), seek(0, 1), probe(0, 9, 1, 0)];
        let then = [
            answer(0, 2, 0),
            judge(0, 0),
            seek(0, 1),
            answer(0, 3, 116),
            seek(0, 1),
        ];
        first.into_iter().chain(then).chain([bare(CLOSE, 0)])
    };
    lost(132).chain(lost(133)).collect()
}

/// Wired at 10 ms before BLE at 5 ms as long as it is near; an unknown medium has no place.
fn media() -> Vec<Event> {
    let mut all = vec![open(0, 100, 1), open(1, 100, 0), sample(0, 0, 10 * MS)];
    all.extend([
        choose(1.0),
        sample(1, 0, 5 * MS),
        choose(100.0),
        choose(1.0),
    ]);
    all.extend([
        open(2, 100, 2),
        sample(2, 0, 5 * MS),
        choose(1.0),
        choose(1.05),
    ]);
    all.extend([open(3, 100, 3), sample(3, 0, 0), choose(1.0), choose(1.1)]);
    all.extend([
        open(4, 100, 0x40),
        sample(4, 0, 6 * MS),
        choose(1.0),
        choose(1.1),
    ]);
    all.extend([fold(4, 0), choose(1.1), choose(2.0)]);
    all
}

/// Pinned first, then the highest tier, 0 taking part, then the fitting.
fn tiers() -> Vec<Event> {
    let mut all = vec![open(0, 100, 0x0c), open(1, 100, 0), choose(1.0)];
    all.extend([
        open(2, 100, 0x10),
        choose(1.0),
        open(3, 100, 0x34),
        choose(1.0),
    ]);
    all.extend([open(4, 100, 0x14), choose(1.0), bare(CLOSE, 3), choose(1.0)]);
    all.extend([bare(CLOSE, 2), bare(CLOSE, 4), bare(CLOSE, 0), choose(1.0)]);
    all.extend([open(5, 100, 0x20), choose(1.0), bare(CLOSE, 5), choose(1.0)]);
    all.extend([bare(CLOSE, 1), choose(1.0)]);
    all
}

/// A sample leaves the window once it is older, and the score with it; never the last.
fn window() -> Vec<Event> {
    let mut all = vec![open(0, 100, 0), open(1, 100, 0), sample(0, 0, 10 * MS)];
    all.extend([sample(1, 0, 50 * MS), sample(1, 1, 5 * MS), choose(1.0)]);
    all.extend([
        sample(1, 6, 50 * MS),
        choose(1.0),
        sample(1, 7, 50 * MS),
        choose(1.0),
    ]);
    all.extend([
        sample(1, 3, 5 * MS),
        choose(1.0),
        sample(1, 9, 50 * MS),
        choose(1.0),
    ]);
    all
}

/// A 33rd sample takes the place of the oldest, the first of equals, wherever that stands.
fn samples() -> Vec<Event> {
    let mut all = vec![open(0, 100, 0), open(1, 100, 0), sample(1, 0, 20 * MS)];
    all.extend((0..32).map(|n| match n {
        5 => sample(0, 50, 10 * MS),
        9 => sample(0, 50, 15 * MS),
        _ => sample(0, 100 + n, 30 * MS),
    }));
    all.extend([
        choose(1.0),
        sample(0, 200, 30 * MS),
        choose(1.0),
        fold(0, 0),
        choose(1.0),
    ]);
    all.extend([
        fold(1, 0),
        choose(1.0),
        sample(0, 7, 30 * MS),
        choose(1.0),
        fold(1, 1),
    ]);
    all.extend([
        sample(0, 8, 16 * MS),
        choose(1.0),
        sample(0, 9, 30 * MS),
        choose(1.0),
    ]);
    all
}

/// ETX rises to 100 and no further, and falls to 1: beside it a path that scores 51, 99, then 100.
fn limits() -> Vec<Event> {
    let mut all = vec![open(0, 100, 0), open(1, 100, 0), sample(0, 0, 0)];
    all.extend([sample(1, 0, 5000 * MS), choose(1.0)]);
    for n in 0..150 {
        all.push(fold(0, 0));
        if n % 10 == 9 {
            all.push(choose(1.0));
        }
    }
    all.extend([sample(1, 2 * SECOND, 9800 * MS), choose(1.0)]);
    all.extend([
        sample(1, 4 * SECOND, 9901 * MS),
        choose(1.0),
        fold(0, 1),
        choose(1.0),
    ]);
    all
}

/// Durations just below 2^62, and deadlines past the last instant.
fn long() -> Vec<Event> {
    let end = u64::MAX;
    let mut all = vec![
        open(0, 1000, 0),
        probe(end - 10, end - 10, 7, 0),
        data(end, 0),
        poll(end, 0),
    ];
    all.extend([
        poll(end, 1),
        answer(end, 7, 0),
        prove(27),
        seek(end - 10, 0),
    ]);
    all.extend([
        probe(end, end, 0, 0),
        answer(0, 9, 0),
        judge(end - 1, LONG - 1),
    ]);
    all.extend([judge(end, LONG - 1), seek(end - 3, 0), seek(end, 0)]);
    all
}

/// An answer to an earlier probe judges nothing: the search probe stays out, and no other goes.
fn answered_before() -> Vec<Event> {
    let mut all = vec![open(0, 65_535, 0), prove(27)];
    all.extend([probe(0, 9, 5, 0), answer(0, 5, 0)]);
    let often = (0..13).chain([700]).map(|n| n * SECOND);
    all.extend(often.flat_map(|now| [seek(now, 5), judge(now, 0)]));
    all
}

/// A probe whose due instant lies before its now gets 23: after 5, before 8, and it takes no identifier.
/// One due just then is sent.
fn before_sent() -> Vec<Event> {
    let on = |slot: u8| Event {
        slot,
        ..probe(5, 4, 7, 0)
    };
    let mut all = vec![open(0, 100, 0), probe(5, 4, 7, 65_536)];
    all.extend([probe(5, 4, 7, 0), probe(5, 0, 7, 0)]);
    all.extend((0..8).map(|_| probe(5, 5, 7, 0)));
    all.extend([probe(5, 4, 7, 0), probe(5, 5, 7, 0), on(8), on(1)]);
    all.push(poll(5, 0));
    all
}

/// A logger whose due instants lie behind: the timeout of 200 ms in their place, 10 ms too early, none. Then
/// the same sends after its repair: none of the refused took an identifier.
fn behind() -> Vec<Event> {
    let sent = |at: u64, due: u64| probe(at * MS, due * MS, 7, 100);
    vec![
        open(0, 1200, 0x29),
        sent(5_000, 200),
        sent(6_000, 5_990),
        sent(7_000, 0),
        answer(7_020 * MS, 7, 0),
        poll(8_000 * MS, 0),
        sent(15_000, 15_200),
        answer(15_020 * MS, 7, 0),
        sent(16_000, 16_200),
        poll(16_200 * MS, 0),
        sent(17_000, 17_200),
        answer(17_020 * MS, 9, 0),
        sent(18_000, 18_000),
    ]
}
