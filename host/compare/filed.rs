//! Lists of events as the bytes of a file.

use crate::events::{CLOSE, List, SHORT, fitted};
use crate::random::Rng;
use oracle::proto::path::eventfile::{WIDTHS, fields_of};
use oracle::proto::path::record::{Event, SLOTS};

/// A list and its file; where each of its records ends.
#[derive(Clone)]
pub struct Filed {
    #[allow(dead_code)]
    pub settings: [u64; 4],
    pub events: Vec<Event>,
    pub bytes: Vec<u8>,
    ends: Vec<usize>,
}

impl Filed {
    /// Records with the fields that are not 0; of the others, those whose bits `spare` has.
    pub fn new(settings: [u64; 4], events: Vec<Event>, mut spare: impl FnMut() -> u8) -> Self {
        let mut bytes = settings.map(u64::to_le_bytes).concat();
        let mut ends = vec![bytes.len()];
        for event in &events {
            put_record(event, spare(), &mut bytes);
            ends.push(bytes.len());
        }
        Self {
            settings,
            events,
            bytes,
            ends,
        }
    }

    /// A list's events as a file can hold them; some fields of 0 stand, as the seed says.
    pub fn of(list: &List, seed: u64) -> Self {
        let mut rng = Rng::new(seed);
        let most = rng.pick(&[0, 0, 0x3f, 0xff]);
        let events = list.events.iter().map(|e| fitted(e, e.kind));
        let held = events.filter(|e| (1..=15).contains(&e.kind)).collect();
        Self::new(list.settings, held, || match most {
            0xff => rng.next() as u8,
            most => most,
        })
    }

    /// The file up to its first `n` events.
    pub fn beginning(&self, n: usize) -> &[u8] {
        &self.bytes[..self.ends[n]]
    }

    /// The file from its event `n` on, and the bytes of that event's record.
    #[allow(dead_code)]
    pub fn rest(&self, n: usize) -> (&[u8], usize) {
        (&self.bytes[self.ends[n]..], self.ends[n + 1] - self.ends[n])
    }
}

/// Put an event's record behind some bytes; `spare` has the bits of fields that stand though they are 0.
pub fn put_record(e: &Event, spare: u8, out: &mut Vec<u8>) {
    let fields = e.fields();
    let read = |bit: u8| fields[usize::from(bit)] != 0 || spare >> bit & 1 == 1;
    let named = (0..6).filter(|&bit| fields_of(e.kind) >> bit & 1 == 1);
    let stand: Vec<u8> = named.filter(|&bit| read(bit)).collect();
    let map = stand.iter().fold(0, |map, bit| map | 1 << bit);
    out.extend([map, e.kind, e.slot]);
    for bit in stand.into_iter().map(usize::from) {
        out.extend_from_slice(&fields[bit].to_le_bytes()[..WIDTHS[bit]]);
    }
}

/// Short records of all kinds; the last ones close every slot, so that another turn may follow.
#[allow(dead_code)]
pub fn turn(seed: u64, len: usize) -> Vec<Event> {
    let mut events = SHORT.filed(seed, len - SLOTS).events;
    events.extend((0..SLOTS as u8).map(|slot| Event {
        kind: CLOSE,
        slot,
        ..Event::default()
    }));
    events
}
