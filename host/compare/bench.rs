//! Nanoseconds a call on long scripts: ours, and the Rust's with the same decoding, answers and
//! image.

use crate::calls::op;
use crate::clib;
use oracle::proto::path::script::{CALL, Call, IMAGE, path_bytes, run, word};
use std::hint::black_box;
use std::time::Instant;

/// Calls in a script, runs of which the median is taken, scripts in a run.
const CALLS: usize = 2_000;
pub const RUNS: usize = 9;
const SCRIPTS: usize = 100;

/// Print the table.
pub fn bench() {
    println!("| Calls | ours, ns a call | the Rust's | ratio |");
    println!("|---|---|---|---|");
    for (name, part) in parts() {
        let script = repeat(&part);
        let mut out = vec![0; script.len() + IMAGE];
        let mut rust = out.clone();
        assert_eq!(clib::script(&script, &mut out), run(&script, &mut rust));
        assert!(out == rust, "ours differs from the Rust's: {name}");
        assert!(
            (0..CALLS).all(|n| word(&rust, 6 * n) == 0),
            "refused: {name}"
        );
        let mut both = [Vec::new(), Vec::new()];
        for _ in 0..RUNS {
            both[0].push(time(|| {
                clib::script(black_box(&script), black_box(&mut out))
            }));
            both[1].push(time(|| run(black_box(&script), black_box(&mut out))));
        }
        let [ours, rust] = both.map(median);
        println!("| {name} | {ours:.1} | {rust:.1} | {:.1} |", ours / rust);
    }
    println!();
    println!("A path in the Rust: {} bytes.", path_bytes());
}

/// What each script repeats.
fn parts() -> [(&'static str, Vec<Call>); 6] {
    let call = |name: &str, args: [u64; 5]| {
        let [a, b, c, d, e] = args;
        [op(name), a, b, c, d, e]
    };
    let send = call("send", [5, 9, 100, 0, 0]);
    let answers = (0..8).map(|id| call("answer", [id, 0, 0, 0, 0]));
    let sample = call("sample", [0, 7, 1 << 60, 60_000_000_000, 0]);
    [
        ("send, answer", vec![send, call("answer", [0, 0, 0, 0, 0])]),
        (
            "8 sends, 8 answers",
            [send; 8].into_iter().chain(answers).collect(),
        ),
        (
            "send, expire (lapse)",
            vec![send, call("expire", [9, 0, 100, 0, 0])],
        ),
        (
            "send, data, expire (deferral), expire (lapse)",
            vec![
                send,
                call("carried", [6, 0, 0, 0, 0]),
                call("expire", [9, 0, 100, 0, 0]),
                call("expire", [105, 0, 100, 0, 0]),
            ],
        ),
        ("sample (32 in the window)", vec![sample]),
        ("outstanding", vec![call("outstanding", [0; 5])]),
    ]
}

/// A part again and again, each answer naming the identifier that its place has, each sample a
/// tenth of a second after the one before.
fn repeat(part: &[Call]) -> Vec<u8> {
    let sends = part.iter().filter(|c| c[0] == op("send")).count() as u64;
    let mut bytes = Vec::with_capacity(CALLS * CALL);
    for (n, call) in part.iter().cycle().take(CALLS).enumerate() {
        let mut call = *call;
        if call[0] == op("answer") {
            call[1] += sends * (n / part.len()) as u64;
        }
        if call[0] == op("sample") {
            call[1] = n as u64 * 100_000_000;
        }
        bytes.extend(call.map(u64::to_le_bytes).concat());
    }
    bytes
}

/// Nanoseconds a call over one run.
fn time(mut script: impl FnMut() -> u64) -> f64 {
    let start = Instant::now();
    for _ in 0..SCRIPTS {
        assert_eq!(script(), 0);
    }
    start.elapsed().as_nanos() as f64 / (SCRIPTS * CALLS) as f64
}

pub fn median(mut times: Vec<f64>) -> f64 {
    times.sort_by(f64::total_cmp);
    times[times.len() / 2]
}
