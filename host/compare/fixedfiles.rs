//! `fixedfiles FOLDER` writes events with the Rust's answers under a folder, as they stand in the
//! repository: examples with their words, and the long file of the program `pathlog` with its lines.

#[allow(dead_code)]
mod aims;
#[allow(dead_code)]
mod calls;
#[allow(dead_code)]
mod events;
mod filed;
mod papers;
mod random;
#[allow(dead_code)]
mod small;
mod wording;

use filed::{Filed, turn};
use oracle::proto::path::eventfile::lines_of;
use small::{SEED, paper};
use std::io::Result;
use std::path::Path;

/// Events of the long file, and its turns.
const EVENTS: usize = 100_000;
const TURNS: usize = 20;

/// The papers' lists that are examples: file, list, what it shows.
const EXAMPLES: [(&str, &str, &str); 7] = [
    ("first", "five lines", "Document 01's example."),
    (
        "refusals",
        "each refusal",
        "Each refusal that an event can bring.",
    ),
    (
        "deferral",
        "deferral",
        "Data after a probe defers it to its cap deadline, and no further.",
    ),
    (
        "late",
        "late holes",
        "Late answers; a hole in the late list is not filled first.",
    ),
    (
        "search",
        "halves",
        "A size search by halves to its end, and past 600 s.",
    ),
    (
        "choice",
        "tiers and pins",
        "Pinned first, then the highest tier, then the fitting.",
    ),
    (
        "dues",
        "dues behind",
        "A logger whose due instants lie before its sends, and the same sends after its repair.",
    ),
];

/// Notes in the words of an example: file, the event that one stands before, what it says.
const NOTES: [(&str, usize, &str); 5] = [
    (
        "dues",
        2,
        "Before: the timeout in the due's place, a due 10 ms behind, no due at all. Each gets 23.",
    ),
    (
        "dues",
        5,
        "Nothing was sent: the answer is to an unknown identifier (9), and nothing lapses.",
    ),
    (
        "dues",
        7,
        "After: due 200 ms later. The identifiers are 7, 8 and 9: the refused ones took none.",
    ),
    ("dues", 10, "At its due instant the second lapses."),
    ("dues", 13, "A due instant at the send itself is allowed."),
];

fn main() -> Result<()> {
    let folder = std::env::args().nth(1).expect("a folder");
    let folder = Path::new(&folder);
    examples(&folder.join("examples"))?;
    let long = long_file();
    let crates = folder.join("crates");
    write(&crates.join("pathlog"), "stdin", &long)?;
    write(&crates.join("pathlog"), "stdout", &lines_of(&long))?;
    eprintln!("{} bytes for pathlog", long.len());
    Ok(())
}

fn write(folder: &Path, name: &str, bytes: &[u8]) -> Result<()> {
    std::fs::create_dir_all(folder)?;
    std::fs::write(folder.join(name), bytes)
}

/// Each example's bytes and words.
fn examples(folder: &Path) -> Result<()> {
    for (file, name, shows) in EXAMPLES {
        let bytes = paper(name).bytes;
        let words = format!("# {shows}\n{}", noted(file, &wording::words(&bytes)));
        assert_eq!(wording::file(&words).as_deref(), Ok(&bytes[..]), "{file}");
        write(folder, &format!("{file}.events"), &bytes)?;
        write(folder, &format!("{file}.txt"), words.as_bytes())?;
    }
    Ok(())
}

/// An example's words, a line for the settings and one for each event, with its notes.
fn noted(file: &str, words: &str) -> String {
    let mut all = String::new();
    for (n, line) in words.lines().enumerate() {
        let notes = NOTES.iter().filter(|note| (note.0, note.1) == (file, n));
        all.extend(notes.map(|note| format!("# {}\n", note.2)));
        all += &format!("{line}\n");
    }
    all
}

/// In turn every refusal that an event can bring, on a record with no path open, and very many events;
/// then a record that is cut.
fn long_file() -> Vec<u8> {
    let first = paper("each refusal");
    let mut events = Vec::new();
    for n in 0..TURNS {
        events.extend(&first.events);
        events.extend(turn(SEED + n as u64, EVENTS / TURNS - first.events.len()));
    }
    let mut bytes = Filed::new(first.settings, events, || 0).bytes;
    bytes.extend([1, 4, 0, 9]);
    bytes
}
