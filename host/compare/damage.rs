//! Damaged files: bytes flipped, cut, inserted, taken out, random maps, kinds and settings.

use crate::filed::Filed;
use crate::random::Rng;
use oracle::proto::path::eventfile::SETTINGS;

/// A list's file with one to four damages.
pub fn damaged(filed: &Filed, rng: &mut Rng) -> Vec<u8> {
    let mut bytes = filed.bytes.clone();
    for _ in 0..1 + rng.below(4) {
        damage(&mut bytes, filed, rng);
    }
    bytes
}

/// One damage.
fn damage(bytes: &mut Vec<u8>, filed: &Filed, rng: &mut Rng) {
    let some = bytes.len() as u64;
    let at = rng.below(some.max(1)) as usize;
    // Where a record began before the first damage.
    let record = filed.beginning(rng.below(filed.events.len() as u64) as usize);
    let record = record.len().min(bytes.len().saturating_sub(3));
    let any = rng.next() as u8;
    match rng.below(12) {
        0 => bytes.truncate(at),
        1 => bytes.insert(at, any),
        2 if some > 0 => {
            bytes.remove(at);
        }
        3 if some > 2 => bytes[record] = any,
        4 if some > 2 => bytes[record] ^= 1 << rng.below(8),
        5 if some > 2 => bytes[record + 1] = rng.pick(&[0, 1, 5, 15, 16, 255, any]),
        6 if some > 2 => bytes[record + 2] = rng.pick(&[0, 7, 8, 255, any]),
        7 if at + 8 <= bytes.len() => {
            let word = rng.wide().to_le_bytes();
            bytes[at..at + 8].copy_from_slice(&word);
        }
        8 if bytes.len() >= SETTINGS => bytes[at % 4 * 8 + 7] = rng.pick(&[0x3f, 0x40, 0x80, any]),
        9 => bytes.extend_from_slice(&any.to_le_bytes()),
        10 if some > 2 => {
            let again = bytes[record..].to_vec();
            bytes.extend(again);
        }
        _ if some > 0 => bytes[at] ^= 1 << rng.below(8),
        _ => bytes.push(any),
    }
}
