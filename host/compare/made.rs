//! The fields that the choice is timed on, the same on every machine: three mixes of 100,000 fields
//! from one seed, for one margin. None has a NaN among what is read, and none is refused.

use crate::random::Rng;
use crate::rivals::{HELD, SCORED, field};
use oracle::proto::path::choice::{FIELD, Nans, choose_of};

/// Fields in a mix, the margin that they are for, and the seed that each mix begins with.
pub const FIELDS: usize = 100_000;
pub const MARGIN: f64 = 1.3;
pub const SEED: u64 = 300;

/// What the fields of a mix have in common.
pub struct Mix {
    pub name: &'static str,
    /// The fewest rivals that are held.
    pub least: usize,
    /// Whether all held rivals have a score (1) or none has (0); else each as it comes.
    pub scored: Option<u64>,
}

pub const MIXES: [Mix; 3] = [
    Mix {
        name: "1 to 8 rivals, scored or not",
        least: 1,
        scored: None,
    },
    Mix {
        name: "8 rivals, all scored",
        least: 8,
        scored: Some(1),
    },
    Mix {
        name: "8 rivals, none scored",
        least: 8,
        scored: Some(0),
    },
];

impl Mix {
    /// Its fields in bytes, in their order.
    pub fn fields(&self) -> Vec<[u8; FIELD]> {
        let mut rng = Rng::new(SEED);
        let mut fields = Vec::with_capacity(FIELDS);
        while fields.len() < FIELDS {
            fields.extend(self.next(&mut rng));
        }
        fields
    }

    /// The next field, if it is one of this mix.
    fn next(&self, rng: &mut Rng) -> Option<[u8; FIELD]> {
        let mut case = field(rng, false);
        if let Some(scored) = self.scored {
            let held = case.rivals.iter_mut().filter(|r| r[HELD] % 2 == 1);
            held.for_each(|r| r[SCORED] = scored);
        }
        let bytes: [u8; FIELD] = case.bytes().try_into().expect("eight rivals");
        let plain = case.held() >= self.least && !case.has_nan(false);
        (plain && choose_of(&bytes, MARGIN, Nans::Raw).0 == 0).then_some(bytes)
    }
}
