//! Nanoseconds a choice on the fields of made.rs: the Rust's `choose` on its own fields in memory;
//! ours on words in memory, and by value; and both from bytes.

use crate::bench::{RUNS, median};
use crate::clib;
use crate::made::{FIELDS, MARGIN, MIXES, SEED};
use crate::rivals::rivals_of;
use oracle::proto::path::choice::{FIELD, Nans, Prepared, choose_of};
use std::hint::black_box;
use std::time::Instant;

/// How many different fields are chosen among: the first of a mix, repeated to its whole number.
const COUNTS: [usize; 4] = [100, 400, 2_000, FIELDS];

/// The sides, in the order of each run.
const RUST: usize = 0;
const WORDS: usize = 1;
const VALUES: usize = 2;
const BYTES: usize = 3;
const RUST_BYTES: usize = 4;
const SIDES: usize = 5;

/// What stands for a refusal: no place.
const NONE: u64 = 8;

/// A field of ours in memory, at the beginning of a line of the cache.
#[repr(C, align(64))]
struct Words(clib::Field);

/// The same fields as each side takes them.
struct Fields {
    rust: Vec<Prepared>,
    words: Vec<Words>,
    bytes: Vec<[u8; FIELD]>,
}

/// Nanoseconds a call, by side and run.
struct Times([Vec<f64>; SIDES]);

/// Print both tables, then how they came about.
pub fn print() {
    println!(
        "| Fields | K | the Rust's `choose`, ns | ours in memory | ratio | by value | ratio |"
    );
    println!("|---|---|---|---|---|---|---|");
    let (mut bytes, mut agreed) = (Vec::new(), 0);
    for mix in &MIXES {
        let fields = Fields::new(mix.fields());
        agreed += fields.agreed();
        for count in COUNTS {
            let times = fields.times(count);
            println!("| {} | {count} | {} |", mix.name, times.in_memory());
            if count == FIELDS {
                bytes.push(format!("| {} | {} |", mix.name, times.from_bytes()));
            }
        }
    }
    println!();
    println!(
        "| Fields, from bytes | ours, ns | the Rust's | ratio | ours to the Rust's `choose` alone |"
    );
    println!("|---|---|---|---|---|");
    bytes.iter().for_each(|row| println!("{row}"));
    println!();
    print_method(agreed);
}

fn print_method(agreed: usize) {
    println!(
        "K different fields, the first of {FIELDS} made from seed {SEED} (host/run fields), repeated to {FIELDS} \
         calls, from bytes K = {FIELDS}; margin {MARGIN}; medians of {RUNS} runs with the sides in turn in each, a \
         ratio the median of the runs' own. A field in memory has {} bytes of the Rust's, read and tested before the \
         clock starts, and {FIELD} of ours, in whose time are the C call, the tests for 6, 12 and 11 and, by value, \
         the reading of the words; from bytes both sides read and test in the time. On {agreed} of {} fields all five \
         sides named the same slot before the clock started.",
        Prepared::bytes(),
        MIXES.len() * FIELDS
    );
}

impl Fields {
    fn new(bytes: Vec<[u8; FIELD]>) -> Self {
        let prepared = |field: &[u8; FIELD]| Prepared::new(field).expect("not refused");
        Self {
            rust: bytes.iter().map(prepared).collect(),
            words: bytes.iter().map(|f| Words(rivals_of(f))).collect(),
            bytes,
        }
    }

    /// On how many fields all sides take the same slot: all, or the program ends.
    fn agreed(&self) -> usize {
        let sides = self.rust.iter().zip(&self.words).zip(&self.bytes);
        for (n, ((rust, words), bytes)) in sides.enumerate() {
            let ours = [in_memory(words), by_value(words), from_bytes(bytes)];
            let theirs = [alone(rust), read(bytes)];
            let same = theirs[0] != NONE && ours.iter().chain(&theirs).all(|p| *p == theirs[0]);
            assert!(same, "field {n}: ours {ours:?}, the Rust's {theirs:?}");
        }
        self.bytes.len()
    }

    /// The runs on the first fields, so many; the sums of the slots must be the same.
    fn times(&self, count: usize) -> Times {
        let mut times = Times([const { Vec::new() }; SIDES]);
        for _ in 0..RUNS {
            let mut sides = [(0.0, 0); SIDES];
            sides[RUST] = run(&self.rust[..count], alone);
            sides[WORDS] = run(&self.words[..count], in_memory);
            sides[VALUES] = run(&self.words[..count], by_value);
            sides[BYTES] = run(&self.bytes[..count], from_bytes);
            sides[RUST_BYTES] = run(&self.bytes[..count], read);
            for ((time, sum), all) in sides.into_iter().zip(&mut times.0) {
                assert_eq!(sum, sides[RUST].1, "ours differs from the Rust's");
                all.push(time);
            }
        }
        times
    }
}

impl Times {
    fn median(&self, side: usize) -> f64 {
        median(self.0[side].clone())
    }

    /// The median of the runs' own ratios.
    fn ratio(&self, ours: usize, rust: usize) -> f64 {
        let runs = self.0[ours].iter().zip(&self.0[rust]);
        median(runs.map(|(ours, rust)| ours / rust).collect())
    }

    fn in_memory(&self) -> String {
        format!(
            "{:.1} | {:.1} | {:.2} | {:.1} | {:.2}",
            self.median(RUST),
            self.median(WORDS),
            self.ratio(WORDS, RUST),
            self.median(VALUES),
            self.ratio(VALUES, RUST)
        )
    }

    fn from_bytes(&self) -> String {
        format!(
            "{:.1} | {:.1} | {:.2} | {:.2}",
            self.median(BYTES),
            self.median(RUST_BYTES),
            self.ratio(BYTES, RUST_BYTES),
            self.ratio(BYTES, RUST)
        )
    }
}

/// One run of a side: nanoseconds a call, and the sum of the slots.
fn run<F>(fields: &[F], choose: impl Fn(&F) -> u64) -> (f64, u64) {
    let start = Instant::now();
    let mut sum = 0;
    for _ in 0..FIELDS / fields.len() {
        for field in fields {
            sum += choose(black_box(field));
        }
    }
    let sum = black_box(sum);
    (start.elapsed().as_nanos() as f64 / FIELDS as f64, sum)
}

/// The slot that each side takes.
fn alone(field: &Prepared) -> u64 {
    field.choose(MARGIN).map_or(NONE, |place| place as u64)
}

fn in_memory(field: &Words) -> u64 {
    slot(clib::choose_words(&field.0, MARGIN))
}

fn by_value(field: &Words) -> u64 {
    slot(clib::choose_rivals(&field.0, MARGIN))
}

fn from_bytes(field: &[u8; FIELD]) -> u64 {
    slot(clib::choose(field, MARGIN))
}

fn read(field: &[u8; FIELD]) -> u64 {
    let (number, value) = choose_of(field, MARGIN, Nans::One);
    slot(clib::Reply { number, value })
}

fn slot(reply: clib::Reply) -> u64 {
    if reply.number == 0 { reply.value } else { NONE }
}
