//! Our scripts beside the Rust's: each script and each of its beginnings, answers and image
//! byte for byte, the bytes past them, and the two refusals that write nothing.

use crate::calls::{Arg, OPS, field, op, show};
use crate::clib;
use crate::flavours::{FLAVOURS, Flavour, script};
use crate::random::Rng;
use crate::smaller;
use oracle::proto::path::script::{CALL, Call, IMAGE, Path, Reply, word};
use std::collections::BTreeMap;

/// Scripts of a flavour, and the most calls in one.
const SCRIPTS: usize = 3_000;
const CALLS: u64 = 80;
/// Calls in a long script, one of each flavour, of which just the end is compared.
const LONG: usize = 3_000;
/// Bytes lent past those that are written.
const PAST: usize = 40;
/// Runs that a difference is made smaller in.
const TRIES: usize = 200_000;

/// Numbers of calls that are counted apart: those there are, and one for all others.
const CALLED: usize = OPS.len() + 1;

/// Refusals that the scripts must reach: of a path that is changed through a reference, those of its two calls.
const MUST: [(&str, u64); 3] = [("send_ref", 5), ("send_ref", 8), ("answer_ref", 9)];

/// The calls that send a probe at an instant, due at another.
const SENDS: [&str; 3] = ["send", "send_ref", "seek_ring"];

/// What was compared.
pub struct Scripts {
    pub scripts: u64,
    pub calls: u64,
    pub runs: u64,
    pub refused: u64,
    /// For each call's number: how often, and how often refused by which number.
    pub by_call: [(u64, BTreeMap<u64, u64>); CALLED],
    /// Probes that are due before their instant and sent all the same: 23 is the record's.
    pub behind: u64,
    /// Scripts by flavour.
    pub flavours: Vec<(&'static str, u64, u64)>,
}

impl Scripts {
    /// Compare all of them. A difference ends the program.
    pub fn run() -> Self {
        let mut all = Self {
            scripts: 0,
            calls: 0,
            runs: 0,
            refused: 0,
            by_call: [const { (0, BTreeMap::new()) }; CALLED],
            behind: 0,
            flavours: Vec::new(),
        };
        for flavour in &FLAVOURS {
            all.flavour(flavour);
        }
        for (name, number) in MUST {
            if !all.by_call[op(name) as usize].1.contains_key(&number) {
                println!("{name}: refusal {number} is never reached");
                std::process::exit(1);
            }
        }
        if all.behind == 0 {
            println!("no probe that is due before its instant is sent");
            std::process::exit(1);
        }
        all
    }

    fn flavour(&mut self, flavour: &Flavour) {
        let mut rng = Rng::new(flavour.seed);
        let before = self.calls;
        for _ in 0..SCRIPTS {
            let len = 1 + rng.below(CALLS) as usize;
            let calls = script(flavour, Rng::new(rng.next()), len);
            self.script(&calls, flavour.name);
            self.refusals(&calls, &mut rng);
        }
        self.long(&script(flavour, Rng::new(rng.next()), LONG), flavour.name);
        self.flavours
            .push((flavour.name, flavour.seed, self.calls - before));
    }

    /// The script and each of its beginnings.
    fn script(&mut self, calls: &[Call], name: &str) {
        let bytes = bytes_of(calls);
        let mut expected = Vec::new();
        let mut path = Path::new();
        for n in 0..=calls.len() {
            if n > 0 {
                let reply = path.call(calls[n - 1]);
                self.count(&calls[n - 1], &reply);
                expected.extend(reply.map(u64::to_le_bytes).concat());
            }
            let written = expected.len();
            expected.extend(path.image().map(u64::to_le_bytes).concat());
            let ours = ours(&bytes[..CALL * n]);
            if ours.number != 0 || ours.bytes[..expected.len()] != expected || !ours.rest {
                report(&smallest(calls[..n].to_vec()), name);
            }
            expected.truncate(written);
            self.runs += 1;
        }
        self.scripts += 1;
        self.calls += calls.len() as u64;
    }

    /// A long script: its answers and its last image.
    fn long(&mut self, calls: &[Call], name: &str) {
        if difference(calls).is_some() {
            report(&smallest(calls.to_vec()), name);
        }
        self.scripts += 1;
        self.runs += 1;
        self.calls += calls.len() as u64;
    }

    fn count(&mut self, call: &Call, reply: &Reply) {
        let (calls, refused) = &mut self.by_call[call[0].min(OPS.len() as u64) as usize];
        *calls += 1;
        if reply[0] != 0 {
            *refused.entry(reply[0]).or_default() += 1;
        } else if SENDS.contains(&name_of(call[0] as usize)) && call[2] < call[1] {
            self.behind += 1;
        }
    }

    /// Too few lent bytes, and bytes that end inside a call: nothing is written.
    fn refusals(&mut self, calls: &[Call], rng: &mut Rng) {
        let mut bytes = bytes_of(calls);
        let enough = bytes.len() + IMAGE;
        let some = rng.below(enough as u64) as usize;
        for lent in [enough - 1, some, 0] {
            self.refusal(&bytes, lent, 16);
        }
        bytes.truncate(bytes.len() - 1 - rng.below(CALL as u64 - 1) as usize);
        for lent in [enough, some, 0] {
            self.refusal(&bytes, lent, 13);
        }
    }

    fn refusal(&mut self, script: &[u8], lent: usize, number: u64) {
        let before: Vec<u8> = (0..lent + PAST).map(|n| n as u8).collect();
        let mut after = before.clone();
        let ours = clib::script(script, &mut after[..lent]);
        if ours != number || before != after {
            println!(
                "{} bytes of script, {lent} lent: ours {ours}, the Rust's {number}; lent bytes {}",
                script.len(),
                if before == after {
                    "unchanged"
                } else {
                    "changed"
                }
            );
            std::process::exit(1);
        }
        self.refused += 1;
    }
}

fn bytes_of(calls: &[Call]) -> Vec<u8> {
    calls
        .iter()
        .flatten()
        .flat_map(|w| w.to_le_bytes())
        .collect()
}

/// What ours makes of a script.
struct Ours {
    number: u64,
    bytes: Vec<u8>,
    /// Whether the bytes past the image, and the script, stand as they stood.
    rest: bool,
}

/// Run ours on a script, on bytes at an odd place, with just enough bytes lent or with more.
fn ours(script: &[u8]) -> Ours {
    let mut given = vec![0; script.len() + 1];
    given[1..].copy_from_slice(script);
    let written = script.len() + IMAGE;
    let fill = |n: usize| (n * 7 + 90) as u8;
    let mut bytes: Vec<u8> = (0..written + PAST).map(fill).collect();
    let lent = written + script.len() / CALL % 2 * (PAST / 2);
    let number = clib::script(&given[1..], &mut bytes[..lent]);
    let rest = (written..written + PAST).all(|n| bytes[n] == fill(n)) && given[1..] == *script;
    Ours {
        number,
        bytes,
        rest,
    }
}

/// How ours differs from the Rust's on a script, if it does.
fn difference(calls: &[Call]) -> Option<String> {
    let ours = ours(&bytes_of(calls));
    if ours.number != 0 {
        return Some(format!("ours refuses the script: {}", ours.number));
    }
    let mut path = Path::new();
    for (n, call) in calls.iter().enumerate() {
        let rust = path.call(*call);
        let reply: Reply = core::array::from_fn(|w| word(&ours.bytes, 6 * n + w));
        if reply != rust {
            return Some(format!(
                "answer to call {}: ours {reply:?}, the Rust's {rust:?}",
                n + 1
            ));
        }
    }
    for (n, rust) in path.image().into_iter().enumerate() {
        let word = word(&ours.bytes, 6 * calls.len() + n);
        if word != rust {
            return Some(format!(
                "image, word {n} ({}): ours {word}, the Rust's {rust}",
                field(n)
            ));
        }
    }
    (!ours.rest).then(|| "ours changes the script, or bytes past the image".to_string())
}

/// The same difference on fewer calls, then on smaller numbers.
fn smallest(calls: Vec<Call>) -> Vec<Call> {
    smaller::smallest(calls, TRIES, without, |calls| difference(calls).is_some())
}

/// A script without its call `n`, the identifiers that later calls name lowered.
fn without(calls: &[Call], n: usize, by: u64) -> Vec<Call> {
    let mut fewer = calls.to_vec();
    fewer.remove(n);
    for call in &mut fewer[n..] {
        let args = OPS
            .get(call[0].min(99) as usize)
            .map_or(&[][..], |(_, args)| args);
        for (m, _) in args
            .iter()
            .enumerate()
            .filter(|(_, (_, arg))| *arg == Arg::Id)
        {
            call[m + 1] = call[m + 1].wrapping_sub(by);
        }
    }
    fewer
}

/// Print a script that shows a difference, and end.
fn report(calls: &[Call], flavour: &str) -> ! {
    let what = difference(calls).unwrap_or_else(|| "gone on a second run".to_string());
    println!("{flavour}: {what}");
    for (n, call) in calls.iter().enumerate() {
        println!("  {:>2}. {}", n + 1, show(call));
    }
    std::process::exit(1)
}

/// A call's name for the counts.
pub fn name_of(n: usize) -> &'static str {
    OPS.get(n).map_or("unknown", |(name, _)| name)
}
