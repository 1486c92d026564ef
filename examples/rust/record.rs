//! A record that is kept over many events: two paths are opened, one is probed and answered three hundred times, the
//! other is lost; polls, a choice, and the standings at the end. docs/ENTRIES.md has the layouts.

#[repr(C)]
struct Reply {
    number: u64,
    value: u64,
}

#[repr(C)]
struct Taken {
    number: u64,
    value: u64,
    read: u64,
}

type Settings = [u64; 4];
type Slots = [[[u64; 4]; 43]; 8];

unsafe extern "C" {
    safe fn hess_record_size() -> u64;
    safe fn hess_record_new(
        settings: &mut Settings,
        slots: &mut Slots,
        cap: u64,
        gap: u64,
        window: u64,
        horizon: u64,
    ) -> Reply;
    safe fn hess_record_words(settings: &Settings, slots: &mut Slots, event: &[u64; 4]) -> u64;
    fn hess_record_bytes(settings: &Settings, slots: &mut Slots, event: *const u8, len: usize) -> Taken;
    fn hess_record_standing(slots: &Slots, slot: u8, out: *mut u8, outlen: usize) -> Reply;
}

const SECOND: u64 = 1_000_000_000;
const MS: u64 = 1_000_000;

/// The kinds of events that are used here.
const OPEN: u8 = 1;
const PROBE: u8 = 2;
const ANSWER: u8 = 3;
const POLL: u8 = 4;
const SAMPLE: u8 = 5;
const FOLD: u8 = 6;
const CHOOSE: u8 = 15;

/// An event's number fields; those that its kind has not are 0.
#[derive(Default)]
struct Fields {
    flags: u8,
    at: u64,
    span: u64,
    id: u32,
    len: u32,
    acked: u32,
}

/// A record: plain words.
#[repr(C)]
struct Record {
    settings: Settings,
    slots: Slots,
}

impl Record {
    /// Eight empty slots, or the refusal number.
    fn new([cap, gap, window, horizon]: [u64; 4]) -> Result<Self, u64> {
        let mut record = Self { settings: [0; 4], slots: [[[0; 4]; 43]; 8] };
        let reply = hess_record_new(&mut record.settings, &mut record.slots, cap, gap, window, horizon);
        if reply.number == 0 { Ok(record) } else { Err(reply.number) }
    }

    /// One event on a slot, by its words: the value, or the refusal number, which stands in the answer's upper half.
    fn event(&mut self, kind: u8, slot: u8, f: Fields) -> Result<u64, u64> {
        let [id, len, acked] = [f.id, f.len, f.acked].map(u64::from);
        let [kind, slot, flags] = [kind, slot, f.flags].map(u64::from);
        let marks = kind << 32 | slot << 40 | flags << 48;
        let words = [f.at, f.span, id | len << 32, acked | marks];
        match hess_record_words(&self.settings, &mut self.slots, &words) {
            value @ 0..=0xffff_ffff => Ok(value),
            answer => Err(answer >> 32),
        }
    }

    /// The event whose record the bytes begin with.
    fn bytes(&mut self, event: &[u8]) -> Taken {
        unsafe { hess_record_bytes(&self.settings, &mut self.slots, event.as_ptr(), event.len()) }
    }

    /// A slot's standing, or the refusal number.
    fn standing(&self, slot: u8) -> Result<Vec<u8>, u64> {
        let mut out = vec![0; 51];
        let reply = unsafe { hess_record_standing(&self.slots, slot, out.as_mut_ptr(), out.len()) };
        out.truncate(reply.value as usize);
        if reply.number == 0 { Ok(out) } else { Err(reply.number) }
    }

    /// Probes slot 0 and answers 20 ms later; probes slot 1, which never answers.
    fn turn(&mut self, at: u64) -> Result<(), u64> {
        let sent = |id| Fields { at, span: at + SECOND, id, len: 1_200, ..Fields::default() };
        let id = self.event(PROBE, 0, sent(1_000))? as u32;
        self.event(PROBE, 1, sent(2_000))?;
        let at = at + 20 * MS;
        if self.event(ANSWER, 0, Fields { at, id, acked: 1_200, ..Fields::default() })? == 1 {
            self.event(SAMPLE, 0, Fields { at, span: 20 * MS, ..Fields::default() })?;
            self.event(FOLD, 0, Fields { flags: 1, ..Fields::default() })?;
        }
        Ok(())
    }

    /// Polls a slot; each probe that lapsed is folded into its ETX. How many lapsed.
    fn poll(&mut self, slot: u8, at: u64) -> Result<u64, u64> {
        let lapses = self.event(POLL, slot, Fields { at, ..Fields::default() })?;
        for _ in 0..lapses {
            self.event(FOLD, slot, Fields::default())?;
        }
        Ok(lapses)
    }
}

/// Takes a number of so many bytes, the lowest first.
fn take(at: &mut &[u8], bytes: usize) -> u64 {
    let (front, rest) = at.split_at(bytes);
    *at = rest;
    front.iter().rev().fold(0, |x, b| x << 8 | u64::from(*b))
}

/// Prints a standing: the fields that it has.
fn print_standing(mut at: &[u8]) {
    let fields =
        [("last RTT", 8), ("least RTT", 8), ("base RTT", 8), ("proven", 2), ("answered", 4), ("quiet since", 8)];
    let map = take(&mut at, 1);
    for (i, (name, bytes)) in fields.into_iter().enumerate() {
        if map >> i & 1 == 1 {
            print!(" {name} {},", take(&mut at, bytes));
        }
    }
    print!(" ETX {},", f64::from_bits(take(&mut at, 8)));
    println!(" misses {}", take(&mut at, 4));
}

fn main() {
    assert_eq!(hess_record_size() as usize, size_of::<Record>());
    let mut record = Record::new([5 * SECOND, SECOND, 10 * SECOND, 60 * SECOND]).expect("allowed settings");
    for slot in 0..2 {
        // fits, normal, wired
        let open = Fields { len: 1_200, flags: 32 + 8 + 1, ..Fields::default() };
        record.event(OPEN, slot, open).expect("an empty slot");
    }
    let mut lapses = 0;
    for n in 0..300 {
        record.turn(n * SECOND).expect("no refusal");
        for slot in 0..2 {
            lapses += record.poll(slot, (n + 1) * SECOND).expect("an open slot");
        }
    }
    println!("lapsed: {lapses}");
    let margin = Fields { span: 1.5f64.to_bits(), ..Fields::default() };
    println!("chosen: slot {}", record.event(CHOOSE, 0, margin).expect("an open slot"));
    // the same choice by the bytes of its event
    let taken = record.bytes(&[2, CHOOSE, 0, 0, 0, 0, 0, 0, 0, 0xf8, 0x3f]);
    println!("by bytes: refusal {}, slot {}, {} bytes read", taken.number, taken.value, taken.read);
    for slot in 0..3 {
        match record.standing(slot) {
            Ok(bytes) => {
                print!("slot {slot}:");
                print_standing(&bytes);
            }
            Err(number) => println!("slot {slot}: refusal {number}"),
        }
    }
}
