//! A file of events by document 01, "Files and tail": its records, the lines of `pathlog`, and the
//! reference of `hess_events`. Written from its text alone; nothing of it is the Rust's.

use super::record::{Event, Record, Reply};
use super::script::word;
use std::io::{Result, Write};

/// Bytes of the settings.
pub const SETTINGS: usize = 32;
/// Bytes of map, kind and slot; of the fields, by their bit in the map.
pub const HEAD: usize = 3;
pub const WIDTHS: [usize; 6] = [8, 8, 4, 2, 2, 1];

/// A value, or a refusal.
type Refusable<T> = core::result::Result<T, u64>;

/// What stands at a place of a file.
#[derive(Clone, Copy, Debug, PartialEq, Eq)]
pub enum Next {
    /// Nothing more.
    End,
    /// An event, and the bytes of its record.
    Event(Event, usize),
    /// 13, 15 or 14, and the kind, 0 if unread.
    Bad(u64, u8),
}

/// The map bits of the fields that a kind has; of no kind, none.
pub fn fields_of(kind: u8) -> u8 {
    let fields: &[u8] = match kind {
        1 => &[3, 5],
        2 => &[0, 1, 2, 3],
        3 => &[0, 2, 4],
        4 => &[0, 5],
        5 | 9 => &[0, 1],
        6 => &[5],
        7 => &[3],
        8 => &[0, 2],
        10 => &[0, 3],
        15 => &[1],
        _ => &[],
    };
    fields.iter().fold(0, |map, bit| map | 1 << bit)
}

/// Bytes of a record by its map: bits 6 and 7 bring none.
fn length_of(map: u8) -> usize {
    let stands = |&bit: &usize| map >> bit & 1 == 1;
    HEAD + (0..6).filter(stands).map(|bit| WIDTHS[bit]).sum::<usize>()
}

/// The record that these bytes begin with: 13, then 15, then 14.
pub fn record_at(bytes: &[u8]) -> Next {
    let Some(&map) = bytes.first() else {
        return Next::End;
    };
    let len = length_of(map);
    if bytes.len() < len {
        return Next::Bad(13, bytes.get(1).copied().unwrap_or(0));
    }
    let kind = bytes[1];
    if !(1..=15).contains(&kind) {
        return Next::Bad(15, kind);
    }
    if map & !fields_of(kind) != 0 {
        return Next::Bad(14, kind);
    }
    Next::Event(event_of(map, &bytes[1..len]), len)
}

/// The event of a record that is whole, from its kind on; an absent field is 0.
fn event_of(map: u8, bytes: &[u8]) -> Event {
    let mut rest = &bytes[2..];
    let mut fields = [0; 6];
    for (bit, field) in fields.iter_mut().enumerate() {
        if map >> bit & 1 == 1 {
            let (now, later) = rest.split_at(WIDTHS[bit]);
            let mut wide = [0; 8];
            wide[..now.len()].copy_from_slice(now);
            *field = u64::from_le_bytes(wide);
            rest = later;
        }
    }
    Event::of(bytes[0], bytes[1], fields)
}

/// The record that a file's settings make: 13 if they are cut short, 6 if one is too large.
pub fn opened(file: &[u8]) -> Refusable<Record> {
    if file.len() < SETTINGS {
        return Err(13);
    }
    Record::new(core::array::from_fn(|n| word(file, n)))
}

/// A line of `pathlog`.
pub fn put_line(out: &mut impl Write, number: u64, kind: u8, reply: Reply) -> Result<()> {
    let (refusal, value) = reply;
    writeln!(out, "{number} {kind} {refusal} {value}")
}

/// All that `pathlog` writes for a file.
pub fn lines_of(file: &[u8]) -> Vec<u8> {
    let mut out = Vec::new();
    put_lines(file, &mut out).expect("bytes take lines");
    out
}

fn put_lines(file: &[u8], out: &mut Vec<u8>) -> Result<()> {
    let mut record = match opened(file) {
        Ok(record) => record,
        Err(why) => return put_line(out, 0, 0, (why, 0)),
    };
    let mut rest = &file[SETTINGS..];
    for number in 1.. {
        match record_at(rest) {
            Next::End => break,
            Next::Event(event, len) => {
                put_line(out, number, event.kind, record.event(&event))?;
                rest = &rest[len..];
            }
            Next::Bad(why, kind) => return put_line(out, number, kind, (why, 0)),
        }
    }
    Ok(())
}

/// A file's events, or the refusal of its first record that can't be read.
pub fn events_in(mut rest: &[u8]) -> Refusable<Vec<Event>> {
    let mut events = Vec::new();
    loop {
        match record_at(rest) {
            Next::End => return Ok(events),
            Next::Event(event, len) => {
                events.push(event);
                rest = &rest[len..];
            }
            Next::Bad(why, _) => return Err(why),
        }
    }
}

/// Every reply to a file's events, 16 bytes each, then the standings of the open slots.
pub fn output_of(file: &[u8]) -> Refusable<Vec<u8>> {
    let mut record = opened(file)?;
    let mut out = Vec::new();
    for event in events_in(&file[SETTINGS..])? {
        let (number, value) = record.event(&event);
        out.extend_from_slice(&number.to_le_bytes());
        out.extend_from_slice(&value.to_le_bytes());
    }
    record.put_standings(&mut out);
    Ok(out)
}

/// `hess_events`: number and value. Nothing is written on a refusal.
pub fn run_events(file: &[u8], out: &mut [u8]) -> Reply {
    match output_of(file) {
        Err(why) => (why, 0),
        Ok(made) if out.len() < made.len() => (16, 0),
        Ok(made) => {
            out[..made.len()].copy_from_slice(&made);
            (0, made.len() as u64)
        }
    }
}
