//! Writes the fixed list of the program `vectors` to standard output: five words, how many scripts,
//! fields, pairs, small files and lists of events follow; then these. A script: 64 calls, the Rust's 64
//! answers, the image of the path after them. A field or a pair: `picked.rs`. A file or a list:
//! `small.rs`, `listed.rs`. All numbers are little-endian. What the lists reach, and what the fields and
//! pairs show, goes to standard error.

#[allow(dead_code)]
mod aims;
#[allow(dead_code)]
mod calls;
#[allow(dead_code)]
mod events;
#[allow(dead_code)]
mod filed;
#[allow(dead_code)]
mod flavours;
mod listed;
mod papers;
mod picked;
mod random;
mod reach;
#[allow(dead_code)]
mod rivals;
mod small;

use flavours::{FLAVOURS, script};
use oracle::proto::path::script::{CALL, IMAGE, run};
use picked::Picked;
use random::Rng;
use reach::Reach;
use std::io::{Result, Write};

// seven of each flavour: the list is one file, which is to stay below 2 MB
const SCRIPTS: usize = 63;
const CALLS: usize = 64;

fn main() -> Result<()> {
    let mut out = std::io::stdout().lock();
    let picked = Picked::new();
    let files = small::cases();
    let mut reach = Reach::default();
    let lists = listed::cases(&mut reach);
    reach.print();
    let missing = reach.missing();
    assert!(missing.is_empty(), "never reached: {missing:?}");
    for (what, count) in &picked.shown {
        eprintln!("  {what}: {count}");
    }
    let picks = [picked.fields.len(), picked.pairs.len()];
    for count in [SCRIPTS, picks[0], picks[1], files.len(), lists.len()] {
        out.write_all(&(count as u64).to_le_bytes())?;
    }
    for n in 0..SCRIPTS {
        out.write_all(&script_record(n))?;
    }
    for case in &picked.fields {
        out.write_all(&Picked::field_record(case))?;
    }
    for case in &picked.pairs {
        out.write_all(&Picked::pair_record(case))?;
    }
    for case in files.into_iter().chain(lists) {
        out.write_all(&small::sized(case))?;
    }
    out.flush()
}

fn script_record(n: usize) -> Vec<u8> {
    let flavour = &FLAVOURS[n % FLAVOURS.len()];
    let calls = script(flavour, Rng::new(1000 + n as u64), CALLS);
    let words = calls.iter().flatten();
    let mut bytes: Vec<u8> = words.flat_map(|w| w.to_le_bytes()).collect();
    let mut answers = [0; CALLS * CALL + IMAGE];
    assert_eq!(run(&bytes, &mut answers), 0);
    bytes.extend(answers);
    bytes
}
