//! `speed OURS RUST FOLDER`: the program `pathlog` and the Rust's on the same files: events a second,
//! how time grows with their number, peak memory; then what an event costs that copies the whole record.

#[allow(dead_code)]
mod aims;
#[allow(dead_code)]
mod calls;
#[allow(dead_code)]
mod clib;
#[allow(dead_code)]
mod events;
#[allow(dead_code)]
mod filed;
mod ours;
mod papers;
mod random;

use filed::{Filed, put_record, turn};
use oracle::proto::path::record::{Record, SLOTS};
use oracle::proto::path::script::path_bytes;
use ours::Ours;
use std::fs::File;
use std::io::{BufWriter, Result, Write};
use std::path::Path;
use std::process::{Command, Stdio};
use std::time::{Duration, Instant};

const RUNS: usize = 9;
const SIZES: [usize; 3] = [100_000, 1_000_000, 10_000_000];
const TURN: usize = 100_000;
const SETTINGS: [u64; 4] = [1_000_000_000; 4];
const SEED: u64 = 1100;

fn main() {
    let words: Vec<String> = std::env::args().skip(1).collect();
    let [ours, rust, folder] = &words[..] else {
        panic!("speed OURS RUST FOLDER")
    };
    println!();
    println!(
        "| Events | bytes | pathlog, s | events a second | the Rust's, s | events a second | ratio | pathlog, peak KB | the Rust's |"
    );
    println!("|---|---|---|---|---|---|---|---|---|");
    let mut copies = None;
    for events in SIZES {
        let file = Path::new(folder).join(format!("{events}.events"));
        let bytes = write(&file, events).expect("a file");
        assert_eq!(lines(ours, &file), lines(rust, &file), "they differ");
        let mut runs = [Vec::new(), Vec::new()];
        for _ in 0..RUNS {
            for (program, runs) in [ours, rust].into_iter().zip(&mut runs) {
                runs.push(run(program, &file));
            }
        }
        let peaks = [ours, rust].map(|program| peak(program, &file));
        let [ours, rust] = runs.map(median);
        let each = |seconds: f64| events as f64 / seconds;
        println!(
            "| {events} | {} | {:.3} | {:.0} | {:.3} | {:.0} | {:.2} | {} | {} |",
            bytes,
            ours,
            each(ours),
            rust,
            each(rust),
            ours / rust,
            peaks[0],
            peaks[1]
        );
        copies.get_or_insert_with(|| (by_record(&file, events), ours / events as f64 * 1e9));
        std::fs::remove_file(file).expect("the file goes");
    }
    println!();
    println!(
        "Medians of {RUNS} runs in turn, lines to nowhere; both print the same bytes. The Rust's record: \
         {} bytes, of {SLOTS} paths of {} each.",
        size_of::<Record>(),
        path_bytes()
    );
    let (record, slot) = copies.expect("a first file");
    println!(
        "On the first file `hess_events`: {record:.0} ns an event, in each of its two passes; `pathlog`: {slot:.0}."
    );
}

/// Nanoseconds an event of one pass of `hess_events`, which goes over the file twice.
fn by_record(file: &Path, events: usize) -> f64 {
    let file = std::fs::read(file).expect("the file");
    let mut ours = Ours::default();
    let runs = (0..RUNS).map(|_| {
        let start = Instant::now();
        let ran = ours.run(&file, 16 * events + 52 * SLOTS);
        let (reply, _) = ran.expect("bytes past the count stay");
        assert_eq!(reply.number, 0, "hess_events refuses the file");
        start.elapsed().as_secs_f64()
    });
    median(runs.collect()) / (2 * events) as f64 * 1e9
}

/// Write a file of so many events, in turns; its bytes.
fn write(path: &Path, events: usize) -> Result<usize> {
    let mut file = BufWriter::new(File::create(path)?);
    let mut bytes = Filed::new(SETTINGS, Vec::new(), || 0).bytes;
    let mut all = 0;
    for n in 0..events / TURN {
        for event in turn(SEED + n as u64, TURN) {
            put_record(&event, 0, &mut bytes);
        }
        file.write_all(&bytes)?;
        all += bytes.len();
        bytes.clear();
    }
    file.flush()?;
    Ok(all)
}

/// A program on a file, its lines to somewhere.
fn command(program: &str, file: &Path, lines: Stdio) -> Command {
    let mut command = Command::new(program);
    let input = File::open(file).expect("the file");
    command.stdin(input).stdout(lines);
    command
}

/// How many bytes a program prints, and a sum over them.
fn lines(program: &str, file: &Path) -> (usize, u64) {
    let output = command(program, file, Stdio::piped()).output();
    let bytes = output.expect("a run").stdout;
    let sum = |sum: u64, byte: &u8| sum.wrapping_mul(31).wrapping_add(u64::from(*byte));
    (bytes.len(), bytes.iter().fold(7, sum))
}

/// Seconds from its start to its end.
fn run(program: &str, file: &Path) -> f64 {
    let start = Instant::now();
    let status = command(program, file, Stdio::null()).status();
    let seconds = start.elapsed().as_secs_f64();
    assert!(status.expect("a run").success(), "{program} failed");
    seconds
}

/// The peak of its memory in KB, read while it waits for more after the whole file. (The usage that the
/// system gives at its end would count what this program had when it started it.)
fn peak(program: &str, file: &Path) -> u64 {
    let mut child = command(program, file, Stdio::null())
        .stdin(Stdio::piped())
        .spawn()
        .expect("a start");
    let mut input = child.stdin.take().expect("a pipe");
    let mut from = File::open(file).expect("the file");
    std::io::copy(&mut from, &mut input).expect("the file goes in");
    std::thread::sleep(Duration::from_millis(500));
    let status = std::fs::read_to_string(format!("/proc/{}/status", child.id()));
    let status = status.expect("its status");
    let line = status.lines().find_map(|line| line.strip_prefix("VmHWM:"));
    let number = line.and_then(|line| line.split_whitespace().next()?.parse().ok());
    drop(input);
    child.wait().expect("its end");
    number.expect("its peak")
}

fn median(mut runs: Vec<f64>) -> f64 {
    runs.sort_by(f64::total_cmp);
    runs[runs.len() / 2]
}
