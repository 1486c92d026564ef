//! Whole lists of events, ours (`hess_events`, `pathlog`) beside the Rust's record.
//!
//!     lists compare         every list, cut and damaged file; a difference ends it with status 1
//!     lists clauses         demand 3's clauses over the Rust's own record: for faults planted in it
//!     lists program PATH    the program `pathlog`, byte for byte
//!     lists rows EVENTS     the record in words, one call an event, every word after each

#[allow(dead_code)]
mod aims;
mod beginnings;
mod book;
#[allow(dead_code)]
mod calls;
mod clauses;
mod damage;
#[cfg(record)]
mod encoder;
#[allow(dead_code)]
mod clib;
#[allow(dead_code)]
mod events;
mod filed;
#[cfg(record)]
mod handed;
#[cfg(record)]
mod kept;
mod ours;
mod papers;
mod program;
mod random;
mod reach;
#[cfg(record)]
mod rows;
mod smaller;
#[cfg(record)]
mod strange;
#[allow(dead_code)]
mod wording;
mod work;

pub fn main() {
    let words: Vec<String> = std::env::args().skip(1).collect();
    let words: Vec<&str> = words.iter().map(String::as_str).collect();
    match words[..] {
        ["clauses"] => work::clauses(),
        ["program", path] => program::compare(path),
        #[cfg(record)]
        ["rows", events] => rows::compare(events.parse().expect("a number of events")),
        _ => work::compare(),
    }
}
