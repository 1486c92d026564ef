//! `fieldfiles FOLDER` writes the fields that the choice is timed on as mix0.fields, mix1.fields and
//! mix2.fields, then tries what it reads back: none may be a case of docs/DIFFERENCES.md.

mod made;
mod random;
#[allow(dead_code)]
mod rivals;

use made::{FIELDS, MARGIN, MIXES, Mix};
use oracle::proto::path::choice::{FIELD, Nans, PLACES, choose_of};
use rivals::{BASE, HELD, INDEX, RTT, Rival, SCORE, SCORED, STEADY, rivals_of};
use std::io::Result;
use std::path::Path;

/// A field as it is read back.
struct Read {
    mix: &'static Mix,
    bytes: [u8; FIELD],
    rivals: [Rival; PLACES],
}

/// What is tried of each field, in words and by itself.
const TRIED: [(&str, fn(&Read) -> bool); 6] = [
    (
        "held rivals as many as the mix says, all with a score or none where it says so",
        Read::of_its_mix,
    ),
    (
        "every RTT and base RTT of a held rival that is there is below 2^62 (else 6)",
        Read::short,
    ),
    (
        "every held rival's index is its place (else 12)",
        Read::placed,
    ),
    ("some rival is held (else 11)", |field| {
        field.held().count() > 0
    }),
    (
        "no score, and no score over the horizon, of a held rival that is there is a NaN",
        Read::no_nan,
    ),
    (
        "the Rust takes the same held place with NaNs' bits as they are and as one NaN's",
        Read::chosen,
    ),
];

impl Read {
    fn held(&self) -> impl Iterator<Item = (usize, &Rival)> {
        let places = self.rivals.iter().enumerate();
        places.filter(|(_, r)| r[HELD] % 2 == 1)
    }

    /// The values in one of these words, of held rivals that have them.
    fn values(&self, words: [usize; 2]) -> impl Iterator<Item = u64> {
        let some = move |r: &Rival| words.map(|n| (r[n - 1] % 2 == 1).then_some(r[n]));
        self.held().flat_map(move |(_, r)| some(r)).flatten()
    }

    fn of_its_mix(&self) -> bool {
        let scored = |(_, r): (usize, &Rival)| self.mix.scored.is_none_or(|s| r[SCORED] % 2 == s);
        self.held().count() >= self.mix.least && self.held().all(scored)
    }

    fn short(&self) -> bool {
        self.values([RTT, BASE]).all(|time| time < 1 << 62)
    }

    fn placed(&self) -> bool {
        self.held().all(|(place, r)| r[INDEX] == place as u64)
    }

    fn no_nan(&self) -> bool {
        let nan = |bits| f64::from_bits(bits).is_nan();
        !self.values([SCORE, STEADY]).any(nan)
    }

    fn chosen(&self) -> bool {
        let (number, place) = choose_of(&self.bytes, MARGIN, Nans::Raw);
        let same = choose_of(&self.bytes, MARGIN, Nans::One) == (number, place);
        let held = self.held().any(|(n, _)| n as u64 == place);
        number == 0 && same && held
    }
}

fn main() -> Result<()> {
    let folder = std::env::args().nth(1).expect("a folder");
    let mut passed = [0; TRIED.len()];
    for (n, mix) in MIXES.iter().enumerate() {
        let file = Path::new(&folder).join(format!("mix{n}.fields"));
        std::fs::write(&file, mix.fields().as_flattened())?;
        let read = std::fs::read(&file)?;
        assert_eq!(read.len(), FIELDS * FIELD);
        for &bytes in read.as_chunks().0 {
            let rivals = rivals_of(&bytes);
            let field = Read { mix, bytes, rivals };
            for ((_, holds), count) in TRIED.iter().zip(&mut passed) {
                *count += usize::from(holds(&field));
            }
        }
        println!(
            "mix{n}.fields: {}, {FIELDS} fields of {FIELD} bytes",
            mix.name
        );
    }
    print_tried(passed);
    Ok(())
}

/// How many fields passed; the program ends with status 1 if one did not.
fn print_tried(passed: [usize; TRIED.len()]) {
    let all = MIXES.len() * FIELDS;
    println!("tried of each field, with the margin {MARGIN}:");
    for ((what, _), count) in TRIED.iter().zip(passed) {
        println!("  {what}: {count} of {all}");
    }
    if passed.iter().any(|&count| count < all) {
        println!("a field is a case of docs/DIFFERENCES.md, or of another mix");
        std::process::exit(1);
    }
    println!("no field is a case of docs/DIFFERENCES.md");
}
