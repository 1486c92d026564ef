//! Linked in as tests/live.rs, the module that live.rs declares under `cfg(test)`: it sees
//! the private fields, so that they are read and set without an edit of live.rs.

use super::*;

/// Words of a path's image.
pub const IMAGE: usize = 225;

/// Fills an image from its front.
struct Words {
    words: [u64; IMAGE],
    at: usize,
}

impl Words {
    fn put(&mut self, word: u64) {
        self.words[self.at] = word;
        self.at += 1;
    }

    fn put_all<const N: usize>(&mut self, words: [u64; N]) {
        for word in words {
            self.put(word);
        }
    }

    /// A tag and the value, two zeros for none.
    fn put_some(&mut self, value: Option<u64>) {
        self.put_all([value.is_some() as u64, value.unwrap_or(0)]);
    }

    fn put_sent(&mut self, sent: &Option<Sent<u64>>) {
        self.put_all(sent.map_or([0; 5], |s| {
            [1, u64::from(s.probe_id), s.at, s.due, s.len as u64]
        }));
    }

    fn put_stop(&mut self, stop: Option<Stop<u64>>) {
        let Some(s) = stop else {
            return self.put_all([0; 7]);
        };
        self.put_all([1, s.free, s.gap.0, s.used.0]);
        self.put_some(s.until);
        self.put(s.owed as u64);
    }
}

/// A float's bits, every NaN as one.
fn bits(x: f64) -> u64 {
    if x.is_nan() {
        0x7ff8_0000_0000_0000
    } else {
        x.to_bits()
    }
}

impl Liveness<u64> {
    /// Every kept field, in the order of the image.
    pub fn image(&self) -> [u64; IMAGE] {
        let mut w = Words {
            words: [0; IMAGE],
            at: 0,
        };
        self.ring.iter().for_each(|s| w.put_sent(s));
        self.late.iter().for_each(|s| w.put_sent(s));
        for id in [self.next_id, self.answered, self.epoch, self.since] {
            w.put_some(id.map(u64::from));
        }
        w.put_some(self.quiet);
        w.put_stop(self.stop);
        w.put(u64::from(self.misses));
        w.put_some(self.last.map(|len| len as u64));
        w.put(self.fallen as u64);
        w.put_some(self.mtu.map(|len| len as u64));
        w.put_some(self.seek.at);
        w.put_all([
            self.seek.probe_id.into(),
            self.seek.len.into(),
            self.seek.lost.into(),
        ]);
        w.put_all([self.frames.into(), self.bytes.into()]);
        w.put_some(self.heard_at);
        w.put_some(self.data_at);
        w.put_some(self.rtt.map(|d| d.0));
        for s in &self.rtts {
            w.put_all(s.map_or([0; 3], |(at, rtt)| [1, at, rtt.0]));
        }
        for s in &self.spans {
            w.put_all(s.map_or([0; 4], |s| [1, s.from, s.to, s.rtt.0]));
        }
        w.put(bits(self.etx));
        assert_eq!(w.at, IMAGE);
        w.words
    }

    /// Whether a search probe is out.
    pub fn seeking(&self) -> bool {
        self.seek.len != 0
    }

    /// The newest identifier answered in time.
    pub fn answered(&self) -> Option<u32> {
        self.answered
    }

    /// The private function `after`.
    pub fn comes_after(a: u32, b: u32) -> bool {
        after(a, b)
    }

    /// A new path with this ETX.
    pub fn with_etx(etx: f64) -> Self {
        Self { etx, ..Self::new() }
    }

    /// A new path with this state of the ladder.
    pub fn with_ladder(fallen: bool, last: Option<usize>) -> Self {
        Self {
            fallen,
            last,
            ..Self::new()
        }
    }

    /// A new path with this last RTT, and one sample in the window.
    pub fn with_rtts(rtt: Option<Duration>, sample: Option<Duration>) -> Self {
        let mut path = Self { rtt, ..Self::new() };
        path.rtts[0] = sample.map(|rtt| (0, rtt));
        path
    }
}
