//! A path's standing by document 01, "Files and tail": a map, the fields whose bits stand in it, then
//! ETX and misses, little-endian. Nothing of it is the Rust's.

use super::live::Liveness;
use super::record::{Record, SLOTS};
use super::script::bits;

/// Put a path's standing behind some bytes.
pub fn put_standing(live: &Liveness<u64>, out: &mut Vec<u8>) {
    let fields: [(Option<u64>, usize); 6] = [
        (live.rtt().map(|d| d.0), 8),
        (live.min_rtt().map(|d| d.0), 8),
        (live.base_rtt().map(|d| d.0), 8),
        (live.mtu().map(|len| len as u64), 2),
        (live.answered().map(u64::from), 4),
        (live.quiet(), 8),
    ];
    let map = out.len();
    out.push(0);
    for (bit, (value, width)) in fields.into_iter().enumerate() {
        if let Some(value) = value {
            out[map] |= 1 << bit;
            out.extend_from_slice(&value.to_le_bytes()[..width]);
        }
    }
    out.extend_from_slice(&bits(live.etx()).to_le_bytes());
    out.extend_from_slice(&live.misses().to_le_bytes());
}

impl Record {
    /// Put an open slot's standing behind some bytes; whether it is open.
    pub fn put_slot(&self, slot: usize, out: &mut Vec<u8>) -> bool {
        self.path(slot)
            .map(|live| put_standing(live, out))
            .is_some()
    }

    /// Put each open slot's number and standing behind some bytes, from slot 0 on.
    pub fn put_standings(&self, out: &mut Vec<u8>) {
        for slot in 0..SLOTS {
            if let Some(live) = self.path(slot) {
                out.push(slot as u8);
                put_standing(live, out);
            }
        }
    }
}
