//! The small files of the fixed list, and the lists of events behind them, as cases: each behind its length
//! as its two parts behind theirs, u32 each: a small file and its lines, or a list of events in words and
//! its standings.

use crate::events::{CHOOSE, PROBE, THEMES, fitted};
use crate::filed::{Filed, put_record};
use crate::papers;
use oracle::proto::path::eventfile::{fields_of, lines_of};
use oracle::proto::path::record::Event;

pub const SEED: u64 = 1000;
/// Random lists among the small files.
const LISTS: usize = 100;

/// A case behind its length, as its two parts behind theirs.
pub fn sized(case: [Vec<u8>; 2]) -> Vec<u8> {
    let sized = |bytes: Vec<u8>| [&(bytes.len() as u32).to_le_bytes(), &bytes[..]].concat();
    sized(case.map(sized).concat())
}

/// A list of the papers as a file: the events that it can hold. A choose reads no slot: here it has 0.
pub fn paper(name: &str) -> Filed {
    let all = papers::lists();
    let list = all.iter().find(|list| list.name == name);
    let list = list.expect("a list of this name");
    let mut held: Vec<_> = list.events.iter().map(|e| fitted(e, e.kind)).collect();
    held.retain(|e| (1..=15).contains(&e.kind));
    for choose in held.iter_mut().filter(|e| e.kind == CHOOSE) {
        choose.slot = 0;
    }
    Filed::new(list.settings, held, || 0)
}

/// The small files, each with its lines.
pub fn cases() -> Vec<[Vec<u8>; 2]> {
    let mut all = settings_cases();
    all.extend(refusal_cases());
    all.extend(record_cases());
    all.extend(probe_cases());
    for n in 0..LISTS {
        let list = THEMES[n % THEMES.len()].filed(SEED + n as u64, 2 + n % 30);
        all.push(Filed::of(&list, n as u64).bytes);
    }
    let parts = all.into_iter().map(|file| [file.clone(), lines_of(&file)]);
    parts.collect()
}

/// No records; settings cut at each byte; settings too large in each of four, and just not.
fn settings_cases() -> Vec<Vec<u8>> {
    let whole = paper("five lines").bytes;
    let mut all: Vec<_> = (0..=32).map(|end| whole[..end].to_vec()).collect();
    all.push(whole.clone());
    for n in 0..4 {
        for large in [1 << 62, u64::MAX, (1 << 62) - 1_u64] {
            let mut file = whole.clone();
            file[8 * n..8 * n + 8].copy_from_slice(&large.to_le_bytes());
            all.push(file.clone());
            file.truncate(31);
            all.push(file);
        }
    }
    all
}

/// The beginnings of the list of each refusal: each ends with one.
fn refusal_cases() -> Vec<Vec<u8>> {
    let list = paper("each refusal");
    let ends = 0..=list.events.len();
    ends.map(|end| list.beginning(end).to_vec()).collect()
}

/// Each kind's record with all its fields, after an open, and a record behind it: cut at each byte (13),
/// with each map bit that it has not (14), with kinds that are none (15), and as it is.
fn record_cases() -> Vec<Vec<u8>> {
    let list = paper("five lines");
    let mut all = Vec::new();
    for kind in 1..=15 {
        let event = Event {
            kind,
            ..Event::default()
        };
        let mut record = Vec::new();
        put_record(&event, 0x3f, &mut record);
        let with = |record: &[u8], behind: bool| {
            let mut file = list.beginning(1).to_vec();
            file.extend(record);
            file.extend(&[0, 14, 0][..3 * usize::from(behind)]);
            file
        };
        all.extend((0..record.len()).map(|end| with(&record[..end], false)));
        all.push(with(&record, true));
        for bit in (0..8).filter(|bit| fields_of(kind) >> bit & 1 == 0) {
            let mut more = record.clone();
            more[0] |= 1 << bit;
            // The bytes that the bit brings: enough for any field.
            all.push(with(&[more.clone(), vec![0; 8]].concat(), true));
            all.push(with(&more, false));
        }
        for none in [0, 16, 255] {
            let mut other = record.clone();
            other[1] = none;
            all.push(with(&other, true));
            other[0] |= 0xc0;
            all.push(with(&other, false));
        }
    }
    all
}

/// A probe with each of its fields or without it, after an open: at 5, due 4, and where both stand due 5 too.
/// With an instant and no due instant it gets 23. The identifier of the probe behind it shows whether it took one.
fn probe_cases() -> Vec<Vec<u8>> {
    let list = paper("five lines");
    let case = |map: u64, due: u64| {
        let with = |bit: u64, number: u64| (map >> bit & 1) * number;
        let fields = [with(0, 5), with(1, due), with(2, 7), with(3, 100), 0, 0];
        let mut file = list.beginning(1).to_vec();
        put_record(&Event::of(PROBE, 0, fields), 0, &mut file);
        put_record(&Event::of(PROBE, 0, [5, 5, 70, 0, 0, 0]), 0, &mut file);
        file
    };
    let mut all: Vec<_> = (0..16).map(|map| case(map, 4)).collect();
    all.extend([3, 7, 11, 15].map(|map| case(map, 5)));
    all
}
