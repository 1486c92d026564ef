//! The fields of sixteen peers, kept in memory as words: filled by named numbers; then a choice for each peer, a report
//! on the wired paths, and a choice for each again. docs/ENTRIES.md, "Rivals", has the words.

#[repr(C)]
struct Reply {
    number: u64,
    value: u64,
}

#[repr(C)]
struct FloatReply {
    number: u64,
    value: f64,
}

unsafe extern "C" {
    safe fn hess_choose_words(field: &[[u64; 12]; 8], margin: f64) -> Reply;
    safe fn hess_score(etx: f64, rtt: u64) -> FloatReply;
    safe fn hess_tier(role: u64) -> u64;
}

const PEERS: usize = 16;
const MARGIN: f64 = 1.3;
const MS: u64 = 1_000_000;
/// The role of a path that is neither preferred nor a backup.
const NORMAL: u64 = 2;

/// What is known of a path.
struct Path {
    medium: Medium,
    pinned: bool,
    rtt: u64,
    etx: Option<f64>,
}

enum Medium {
    Wired = 1,
    Wireless = 2,
}

/// A field in the caller's own memory, from the beginning of a line of the cache.
#[repr(C, align(64))]
struct Field([[u64; 12]; 8]);

impl Field {
    /// Writes a path, which fits, into a place; its score, where there is one, is by its ETX and round trip.
    fn put(&mut self, place: usize, path: Path) {
        let (held, index, timed) = (1, place as u64, 1);
        let score = path.etx.map(|etx| hess_score(etx, path.rtt)).filter(|score| score.number == 0);
        let [scored, score] = score.map_or([0, 0], |score| [1, score.value.to_bits()]);
        let marks = u64::from(path.pinned) << 1 | 1 << 2 | (path.medium as u64) << 4;
        // With no figures over the horizon.
        self.0[place] = [held, index, scored, score, timed, path.rtt, 0, 0, 0, 0, hess_tier(NORMAL), marks];
    }

    /// The choice, in words.
    fn chosen(&self) -> &'static str {
        let medium = |marks: u64| ["BLE", "wired", "wireless", "unknown"][(marks >> 4 & 3) as usize];
        match hess_choose_words(&self.0, MARGIN) {
            Reply { number: 0, value } => medium(self.0[value as usize][11]),
            Reply { number: 11, .. } => "no path",
            _ => "refused",
        }
    }
}

/// The paths of a peer: a wired one, the slower the higher the peer's number, and a wireless one, which peer 5 has
/// pinned. Peer 9 has no score, peer 12 no path.
fn paths(peer: usize) -> Vec<Path> {
    let etx = (peer != 9).then_some(1.0);
    let wired = Path { medium: Medium::Wired, pinned: false, rtt: 4 * peer as u64 * MS, etx };
    let wireless = Path { medium: Medium::Wireless, pinned: peer == 5, rtt: 5 * MS, etx };
    if peer == 12 { Vec::new() } else { vec![wired, wireless] }
}

fn main() {
    let mut fields: [Field; PEERS] = std::array::from_fn(|_| Field([[0; 12]; 8]));
    for (peer, field) in fields.iter_mut().enumerate() {
        paths(peer).into_iter().enumerate().for_each(|(place, path)| field.put(place, path));
    }
    let before = fields.each_ref().map(Field::chosen);
    // A report: the wired paths of even peers take three sends for each that arrives.
    for peer in (0..PEERS).step_by(2) {
        if let Some(wired) = paths(peer).into_iter().next() {
            fields[peer].put(0, Path { etx: Some(3.0), ..wired });
        }
    }
    for (peer, field) in fields.iter().enumerate() {
        println!("peer {peer}: {}, after the report {}", before[peer], field.chosen());
    }
}
