//! A record in words, over C: our functions on it, and words that must stay on both sides of it.

use crate::clib::Reply;
use oracle::proto::path::record::{Event, SLOTS};

/// Rows of a slot.
pub const ROWS: usize = 43;

/// The rows of a slot.
pub type SlotRows = [[u64; 4]; ROWS];

/// A record: settings and slots.
#[repr(C)]
#[derive(Clone, PartialEq, Eq)]
pub struct Kept {
    pub settings: [u64; 4],
    pub slots: [SlotRows; SLOTS],
}

/// What is said of an event's bytes.
#[repr(C)]
#[derive(Clone, Copy, Debug, PartialEq, Eq)]
pub struct Taken {
    pub number: u64,
    pub value: u64,
    pub read: u64,
}

type Settings = [u64; 4];
type Slots = [SlotRows; SLOTS];

unsafe extern "C" {
    safe fn hess_record_size() -> u64;
    safe fn hess_record_new(
        settings: &mut Settings,
        slots: &mut Slots,
        cap: u64,
        gap: u64,
        window: u64,
        horizon: u64,
    ) -> Reply;
    safe fn hess_record_event(
        settings: &Settings,
        slots: &mut Slots,
        kind: u8,
        slot: u8,
        flags: u8,
        at: u64,
        span: u64,
        id: u32,
        len: u32,
        acked: u32,
    ) -> Reply;
    safe fn hess_record_words(settings: &Settings, slots: &mut Slots, event: &[u64; 4]) -> u64;
    fn hess_record_bytes(
        settings: &Settings,
        slots: &mut Slots,
        event: *const u8,
        len: usize,
    ) -> Taken;
    fn hess_record_standing(slots: &Slots, slot: u8, out: *mut u8, outlen: usize) -> Reply;
}

/// An answer of one word: the number above, the value below.
pub fn reply_in(answer: u64) -> Reply {
    Reply {
        number: answer >> 32,
        value: answer & 0xffff_ffff,
    }
}

impl Kept {
    /// Any words.
    pub fn filled(mut word: impl FnMut() -> u64) -> Self {
        let mut row = || core::array::from_fn(|_| word());
        Self {
            settings: row(),
            slots: core::array::from_fn(|_| core::array::from_fn(|_| row())),
        }
    }

    /// The bytes that ours says a record has.
    pub fn size() -> u64 {
        hess_record_size()
    }

    /// Made new in these words.
    pub fn renew(&mut self, [cap, gap, window, horizon]: [u64; 4]) -> Reply {
        hess_record_new(
            &mut self.settings,
            &mut self.slots,
            cap,
            gap,
            window,
            horizon,
        )
    }

    /// One event, by numbers.
    #[inline]
    pub fn event(&mut self, e: &Event) -> Reply {
        hess_record_event(
            &self.settings,
            &mut self.slots,
            e.kind,
            e.slot,
            e.flags,
            e.now,
            e.span,
            e.id,
            e.len,
            e.acked,
        )
    }

    /// One event, by its four words; number and value in one.
    #[inline]
    pub fn words(&mut self, event: &[u64; 4]) -> u64 {
        hess_record_words(&self.settings, &mut self.slots, event)
    }

    /// One event, by the bytes that begin with its record.
    pub fn bytes(&mut self, event: &[u8]) -> Taken {
        // The pointer is good for as many bytes as stand beside it; so below.
        unsafe { hess_record_bytes(&self.settings, &mut self.slots, event.as_ptr(), event.len()) }
    }

    /// The standing of a slot's path into the lent bytes.
    pub fn standing(&self, slot: u8, out: &mut [u8]) -> Reply {
        unsafe { hess_record_standing(&self.slots, slot, out.as_mut_ptr(), out.len()) }
    }
}

/// A record between words that must stay.
#[repr(C)]
pub struct Guarded {
    before: [u64; 64],
    pub kept: Kept,
    after: [u64; 64],
}

/// What these words are.
const GUARD: u64 = 0xa5a5_5a5a_0ff0_f00f;

impl Guarded {
    pub fn new(kept: Kept) -> Self {
        Self {
            before: [GUARD; 64],
            kept,
            after: [GUARD; 64],
        }
    }

    /// Whether they stayed.
    pub fn whole(&self) -> bool {
        self.before == [GUARD; 64] && self.after == [GUARD; 64]
    }
}
