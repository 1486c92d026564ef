//! Our C functions: libhessiantalc.a, and `hess_script` and `hess_choose_rivals` of libhesstest.a. A C `bool` comes back as a byte, so that any but 0 and 1 shows.

use oracle::proto::path::choice::one_nan;
#[cfg(choice)]
use oracle::proto::path::choice::{PLACES, WORDS};

/// A refusal number, 0 if accepted, and a value.
#[repr(C)]
#[derive(Clone, Copy, Debug, PartialEq, Eq)]
pub struct Reply {
    pub number: u64,
    pub value: u64,
}

/// The same where the value is a float.
#[repr(C)]
#[derive(Clone, Copy, Debug)]
pub struct FloatReply {
    pub number: u64,
    pub value: f64,
}

impl FloatReply {
    /// With the value's bits, every NaN as one.
    pub fn bits(self) -> Reply {
        Reply {
            number: self.number,
            value: one_nan(self.value.to_bits()),
        }
    }
}

unsafe extern "C" {
    pub safe fn hess_after(a: u32, b: u32) -> u8;
    pub safe fn hess_deadline(t: u64, d: u64) -> Reply;
    pub safe fn hess_elapsed(now: u64, from: u64) -> u64;
    pub safe fn hess_fold(etx: f64, delivered: bool) -> f64;
    pub safe fn hess_quality_index(etx: f64, rtt_ms: f64) -> f64;
    pub safe fn hess_clamp(x: f64, lo: f64, hi: f64) -> f64;
    pub safe fn hess_max(x: f64, y: f64) -> f64;
    pub safe fn hess_seconds(ns: u64) -> FloatReply;
    pub safe fn hess_total_bits(a: u64, b: u64) -> u8;
    pub safe fn hess_total(a: f64, b: f64) -> u8;
    pub safe fn hess_size(full: u32, fallen: bool, held: bool, last: u32) -> Reply;
    pub safe fn hess_timeout(
        floor: u64,
        cap: u64,
        timed: bool,
        last: u64,
        sampled: bool,
        largest: u64,
    ) -> Reply;
    fn hess_script(script: *const u8, len: usize, out: *mut u8, outlen: usize) -> u64;
}

/// A script in, answers and image out; the refusal number.
pub fn script(script: &[u8], out: &mut [u8]) -> u64 {
    // Both pointers are good for as many bytes as stand beside them, and apart.
    unsafe { hess_script(script.as_ptr(), script.len(), out.as_mut_ptr(), out.len()) }
}

/// A field in memory: the words of its eight rivals.
#[cfg(choice)]
pub type Field = [[u64; WORDS]; PLACES];

#[cfg(choice)]
unsafe extern "C" {
    fn hess_choose(field: *const u8, len: usize, margin: f64) -> Reply;
    fn hess_choose_words(field: *const Field, margin: f64) -> Reply;
    fn hess_choose_rivals(field: *const Field, margin: f64) -> Reply;
    fn hess_best(field: *const u8, len: usize, out: *mut u8, outlen: usize) -> u64;
    fn hess_held(pair: *const u8, len: usize, margin: f64) -> Reply;
    fn hess_waits(pair: *const u8, len: usize, margin: f64) -> Reply;
    pub safe fn hess_hold(at: u64, reports: u8, now: u64, dwell: u64) -> Reply;
    pub safe fn hess_score(etx: f64, rtt: u64) -> FloatReply;
    pub safe fn hess_tier(role: u64) -> u64;
    pub safe fn hess_quicker(a: u64, b: u64) -> u8;
    pub safe fn hess_carried(link: u32, held: bool, proven: u32, oriented: bool) -> Reply;
}

/// The chosen place.
#[cfg(choice)]
pub fn choose(field: &[u8], margin: f64) -> Reply {
    // The pointer is good for as many bytes as stand beside it; so below.
    unsafe { hess_choose(field.as_ptr(), field.len(), margin) }
}

/// The chosen place of a field in memory.
#[cfg(choice)]
pub fn choose_words(field: &Field, margin: f64) -> Reply {
    unsafe { hess_choose_words(field, margin) }
}

/// The same, by the choice over rivals by value.
#[cfg(choice)]
pub fn choose_rivals(field: &Field, margin: f64) -> Reply {
    unsafe { hess_choose_rivals(field, margin) }
}

/// The least score into the lent bytes; the refusal number.
#[cfg(choice)]
pub fn best(field: &[u8], out: &mut [u8]) -> u64 {
    unsafe { hess_best(field.as_ptr(), field.len(), out.as_mut_ptr(), out.len()) }
}

/// Whether a change is held.
#[cfg(choice)]
pub fn held(pair: &[u8], margin: f64) -> Reply {
    unsafe { hess_held(pair.as_ptr(), pair.len(), margin) }
}

/// Whether a change waits.
#[cfg(choice)]
pub fn waits(pair: &[u8], margin: f64) -> Reply {
    unsafe { hess_waits(pair.as_ptr(), pair.len(), margin) }
}
