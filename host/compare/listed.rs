//! Lists of events as the program `vectors` has them, in words, with the answers and the standings of
//! the Rust's record: four settings, then for each event its four words and the word of its answer; apart
//! from them 51 bytes for each slot, its standing and zeros.

use crate::events::{List, lists, words_of};
use crate::reach::Reach;
use oracle::proto::path::record::{Event, Record, SLOTS};

/// The bytes of the longest standing.
const STANDING: usize = 51;

/// Each list and its standings; what they reach is counted.
pub fn cases(reach: &mut Reach) -> Vec<[Vec<u8>; 2]> {
    lists().iter().map(|list| case(list, reach)).collect()
}

/// One list.
fn case(list: &List, reach: &mut Reach) -> [Vec<u8>; 2] {
    let mut record = Record::new(list.settings).expect("allowed settings");
    reach.list(list.events.len());
    let mut told = bytes(&list.settings);
    for event in &list.events {
        told.extend(bytes(&words_of(event, 0)));
        told.extend(bytes(&[answer(&mut record, event, reach)]));
    }
    [told, standings(&record)]
}

/// Numbers, the lowest byte first.
fn bytes(words: &[u64]) -> Vec<u8> {
    words.iter().flat_map(|word| word.to_le_bytes()).collect()
}

/// The answer to an event in one word: the refusal number times 2^32, and the value.
fn answer(record: &mut Record, event: &Event, reach: &mut Reach) -> u64 {
    let before = record.clone();
    let reply = record.event(event);
    reach.event(event, reply, &before, record);
    assert!(reply.1 >> 32 == 0, "a value of 32 bits");
    reply.0 << 32 | reply.1
}

/// The standing of each slot, and zeros behind it; zeros alone for an empty one.
fn standings(record: &Record) -> Vec<u8> {
    let mut all = Vec::new();
    for slot in 0..SLOTS {
        record.put_slot(slot, &mut all);
        all.resize(STANDING * (slot + 1), 0);
    }
    all
}
