//! The program `pathlog` byte for byte: a file in, lines out.

use crate::damage::damaged;
use crate::events::THEMES;
use crate::filed::{Filed, turn};
use crate::random::Rng;
use crate::wording::words;
use oracle::proto::path::eventfile::{SETTINGS, lines_of};
use std::fs::File;
use std::io::{Read, Write};
use std::process::{Child, ChildStdin, Command, Stdio};
use std::time::Instant;

const SEED: u64 = 900;
/// Damaged files, lists, and events of the long file.
const DAMAGED: usize = 120;
const LISTS: usize = 60;
const EVENTS: usize = 100_000;

/// A file by the part that it belongs to.
type Case = (&'static str, Vec<u8>);

/// Compare all of them with the program at a path. A difference ends this one.
pub fn compare(path: &str) {
    let start = Instant::now();
    let mut rng = Rng::new(SEED);
    let mut files = 0;
    let mut lines = 0;
    for (part, file) in cases(&mut rng) {
        for &piece in pieces(&file) {
            lines += one(path, part, &file, piece);
            files += 1;
        }
    }
    broken(path);
    refused(path);
    let seconds = start.elapsed().as_secs_f64();
    println!("pathlog: {files} files, {lines} bytes of lines, no difference; {seconds:.1} seconds");
}

/// A list of a theme.
fn made(n: usize, len: usize) -> Filed {
    let list = THEMES[n % THEMES.len()].filed(SEED + n as u64, len);
    Filed::of(&list, n as u64)
}

/// Very many events.
fn long() -> Vec<u8> {
    Filed::new([SEED; 4], turn(SEED, EVENTS), || 0).bytes
}

fn cases(rng: &mut Rng) -> Vec<Case> {
    let whole = made(0, 12).bytes;
    let mut all: Vec<Case> = (0..=whole.len())
        .map(|end| ("a cut file", whole[..end].to_vec()))
        .collect();
    for n in 0..4 {
        let mut file = whole.clone();
        file[8 * n + 7] = 0x40;
        all.push(("settings too large", file.clone()));
        file.truncate(SETTINGS);
        all.push(("settings too large, no records", file));
    }
    for n in 0..DAMAGED {
        let file = damaged(&made(n, 1 + n % 40), rng);
        all.push(("a damaged file", file));
    }
    all.extend((0..LISTS).map(|n| ("a list", made(n, 10 + 7 * n).bytes)));
    let long = long();
    all.push(("a long file, cut", long[..long.len() - 1].to_vec()));
    all.push(("a long file", long));
    all
}

/// The sizes of the pieces in which a file is written: whole; of some files by small ones too.
fn pieces(file: &[u8]) -> &'static [usize] {
    match file.len() {
        1_000.. => &[usize::MAX, 4_093],
        300..1_000 => &[usize::MAX, 1, 7],
        _ => &[usize::MAX],
    }
}

fn started(path: &str) -> (Child, ChildStdin) {
    let child = Command::new(path)
        .stdin(Stdio::piped())
        .stdout(Stdio::piped())
        .spawn();
    let mut child = child.unwrap_or_else(|why| panic!("{path}: {why}"));
    let input = child.stdin.take().expect("a pipe");
    (child, input)
}

/// One file, by pieces of a size: the bytes of its lines.
fn one(path: &str, part: &str, file: &[u8], piece: usize) -> usize {
    let (mut child, mut input) = started(path);
    let mut output = child.stdout.take().expect("a pipe");
    let mut found = Vec::new();
    std::thread::scope(|scope| {
        // The program may end before it has read all: then a write fails, and that is no matter.
        scope.spawn(move || {
            let mut pieces = file.chunks(piece);
            let _ = pieces.try_for_each(|piece| input.write_all(piece));
        });
        output.read_to_end(&mut found).expect("its lines");
    });
    let status = child.wait().expect("its end");
    let expected = lines_of(file);
    if found != expected || !status.success() {
        let at = (0..found.len()).find(|&at| expected.get(at) != Some(&found[at]));
        println!(
            "pathlog on {part} of {} bytes, pieces of {piece}: {status}",
            file.len()
        );
        println!(
            "  {} bytes, the Rust's {}, at {at:?}",
            found.len(),
            expected.len()
        );
        if file.len() < 2_000 {
            println!("{}", words(file));
        }
        std::process::exit(1);
    }
    found.len()
}

/// Nobody reads its lines any more: it ends, and not with success.
fn broken(path: &str) {
    let file = long();
    let (mut child, mut input) = started(path);
    let mut few = [0; 10];
    let mut output = child.stdout.take().expect("a pipe");
    std::thread::scope(|scope| {
        scope.spawn(move || input.write_all(&file));
        output.read_exact(&mut few).expect("its first lines");
        drop(output);
    });
    let status = child.wait().expect("its end");
    if status.success() {
        println!("pathlog ends with success though nobody reads its lines");
        std::process::exit(1);
    }
}

/// Its lines can't be written: it ends, and says so on standard error, from which `./pathlog` makes its status.
fn refused(path: &str) {
    let Ok(full) = File::create("/dev/full") else {
        return;
    };
    let child = Command::new(path)
        .stdin(Stdio::piped())
        .stdout(full)
        .stderr(Stdio::piped())
        .spawn();
    let mut child = child.unwrap_or_else(|why| panic!("{path}: {why}"));
    let mut input = child.stdin.take().expect("a pipe");
    let _ = input.write_all(&long());
    drop(input);
    let output = child.wait_with_output().expect("its end");
    if output.stderr.is_empty() {
        println!("pathlog says nothing of lines that can't be written");
        std::process::exit(1);
    }
}
