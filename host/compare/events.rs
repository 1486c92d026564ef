//! Lists of events on a peer record, from fixed seeds. A scene runs the record beside the list that
//! it makes, so that events can aim at the paths' own instants, identifiers and sizes.

use crate::aims::{MS, SECOND, answered_since, duration, instants, waits_since, weighted};
use crate::calls::{IDS, PROVEN, RING, SEEK};
use crate::random::Rng;
use oracle::proto::path::eventfile::{WIDTHS, fields_of};
use oracle::proto::path::record::{Event, Record, Reply, SLOTS};
use oracle::proto::path::script::Image;

/// Kinds of events by name.
pub const OPEN: u8 = 1;
pub const PROBE: u8 = 2;
pub const ANSWER: u8 = 3;
pub const POLL: u8 = 4;
pub const SAMPLE: u8 = 5;
pub const FOLD: u8 = 6;
pub const PROVE: u8 = 7;
pub const SEARCH: u8 = 8;
pub const JUDGE: u8 = 9;
pub const HEAR: u8 = 10;
pub const FRESH: u8 = 11;
pub const THAW: u8 = 12;
pub const SWEEP: u8 = 13;
pub const CLOSE: u8 = 14;
pub const CHOOSE: u8 = 15;

/// Settings (cap, gap, window, horizon) and the events on a fresh record of them.
pub struct List {
    /// The theme, and what this list shows.
    pub theme: &'static str,
    pub name: String,
    pub settings: [u64; 4],
    pub events: Vec<Event>,
}

/// An event as its four words: instant; span; identifier and length; acknowledged length, kind, slot
/// and flags, with a byte above them that is not read.
pub fn words_of(e: &Event, spare: u8) -> [u64; 4] {
    let [id, len, acked] = [e.id, e.len, e.acked].map(u64::from);
    let [kind, slot, flags, spare] = [e.kind, e.slot, e.flags, spare].map(u64::from);
    let marks = kind << 32 | slot << 40 | flags << 48 | spare << 56;
    [e.now, e.span, id | len << 32, acked | marks]
}

/// How the lists of one theme are made.
pub struct Theme {
    pub name: &'static str,
    seed: u64,
    /// Kinds and their weights, on an open slot.
    kinds: &'static [(u8, u64)],
    /// Slots in use.
    slots: u64,
    /// Where the clock may start, and its steps.
    starts: &'static [u64],
    steps: &'static [u64],
    /// First identifiers.
    draws: &'static [u32],
    /// Full sizes.
    sizes: &'static [u64],
    /// Durations for the settings; none: by the steps.
    times: &'static [u64],
    /// Instants, in a hundred, that aim at the path's own.
    aimed: u64,
    /// Fields that a kind doesn't read, in a hundred, that are any number.
    unread: u64,
    /// Fields, in a hundred, that are any number; kinds and slots too.
    damage: u64,
    /// Whether size searches are led through to their end.
    led: bool,
    /// Events, in a hundred, with neither an instant nor a draw: their records are short.
    bare: u64,
}

/// Ordinary life; the others say what they do otherwise.
#[rustfmt::skip]
const LIFE: Theme = Theme {
    name: "life",
    seed: 1,
    kinds: &[
        (PROBE, 16), (ANSWER, 14), (POLL, 10), (SAMPLE, 6), (FOLD, 4), (PROVE, 3), (SEARCH, 6),
        (JUDGE, 5), (HEAR, 5), (FRESH, 2), (THAW, 2), (SWEEP, 2), (CLOSE, 2), (CHOOSE, 6),
        (OPEN, 1),
    ],
    slots: 3,
    starts: &[0, 1, 1000, 5 * SECOND],
    steps: &[0, 1, 2, 50, MS, SECOND],
    draws: &[7, 1_000_000, 0x8000_0000],
    sizes: &[27, 28, 59, 60, 100, 132, 133, 1200, 65_535],
    times: &[],
    aimed: 25,
    unread: 0,
    damage: 0,
    led: false,
    bare: 0,
};

/// Short records of all kinds and refusals, for files of very many.
#[rustfmt::skip]
pub const SHORT: Theme = Theme {
    name: "short",
    seed: 11,
    kinds: &[
        (PROBE, 14), (ANSWER, 14), (POLL, 8), (SAMPLE, 4), (FOLD, 10), (PROVE, 6), (SEARCH, 6),
        (JUDGE, 4), (HEAR, 3), (FRESH, 4), (THAW, 4), (SWEEP, 3), (CLOSE, 7), (CHOOSE, 4),
        (OPEN, 3),
    ],
    slots: 8,
    damage: 2,
    bare: 40,
    ..LIFE
};

/// The themes, in the order in which they are written.
#[rustfmt::skip]
pub const THEMES: [Theme; 10] = [
    LIFE,
    Theme {
        name: "ring",
        seed: 2,
        kinds: &[
            (PROBE, 40), (POLL, 24), (HEAR, 14), (ANSWER, 10), (SWEEP, 1), (THAW, 2), (FRESH, 2),
        ],
        slots: 1,
        steps: &[0, 1, 2, 3],
        aimed: 45,
        ..LIFE
    },
    Theme {
        name: "late",
        seed: 3,
        kinds: &[(PROBE, 30), (POLL, 26), (ANSWER, 36), (SWEEP, 4), (HEAR, 4), (THAW, 4)],
        slots: 1,
        steps: &[0, 1, 3],
        aimed: 30,
        ..LIFE
    },
    Theme {
        name: "wrap",
        seed: 4,
        kinds: &[
            (PROBE, 30), (ANSWER, 30), (POLL, 14), (SEARCH, 10), (JUDGE, 10), (FRESH, 5),
            (THAW, 5), (SWEEP, 2), (PROVE, 4), (CLOSE, 1),
        ],
        slots: 2,
        steps: &[0, 1, 2, SECOND],
        draws: &[
            u32::MAX, 0xffff_fffe, 0xffff_fffc, 0xffff_fff4, 0x7fff_fffc, 0,
        ],
        ..LIFE
    },
    Theme {
        name: "search",
        seed: 5,
        kinds: &[
            (SEARCH, 24), (ANSWER, 14), (JUDGE, 14), (PROBE, 12), (PROVE, 4), (FRESH, 2),
            (POLL, 6), (CLOSE, 1),
        ],
        slots: 2,
        steps: &[0, 1, MS, SECOND, 600 * SECOND],
        sizes: &[27, 28, 59, 60, 100, 132, 133, 1200, 1500, 9000, 65_535, 65_535],
        aimed: 40,
        led: true,
        ..LIFE
    },
    Theme {
        name: "sizes",
        seed: 6,
        kinds: &[
            (SEARCH, 30), (ANSWER, 20), (JUDGE, 16), (PROVE, 14), (PROBE, 10), (FRESH, 4),
        ],
        slots: 1,
        steps: &[1, SECOND],
        sizes: &[28, 60, 133, 300, 65_535],
        times: &[0, 0, 1, SECOND],
        aimed: 60,
        led: true,
        ..LIFE
    },
    Theme {
        name: "clocks",
        seed: 7,
        starts: &[0, 3, u64::MAX - 5, u64::MAX, u64::MAX - 40 * SECOND, 1 << 63, 1 << 62],
        steps: &[0, 1, 7, SECOND, 1 << 61, u64::MAX, u64::MAX - SECOND],
        slots: 2,
        aimed: 60,
        led: true,
        ..LIFE
    },
    Theme {
        name: "choice",
        seed: 8,
        kinds: &[(SAMPLE, 34), (FOLD, 16), (CHOOSE, 46), (CLOSE, 6)],
        slots: 8,
        steps: &[0, 1, MS, SECOND],
        aimed: 15,
        ..LIFE
    },
    Theme {
        name: "samples",
        seed: 9,
        kinds: &[(SAMPLE, 64), (FOLD, 4), (CHOOSE, 30)],
        slots: 2,
        steps: &[0, 0, 1, 2, 10],
        starts: &[0, 100, u64::MAX - 100, 1 << 63],
        times: &[0, 1, 5, 6, 12, 60, 200, (1 << 62) - 1],
        aimed: 30,
        ..LIFE
    },
    Theme {
        name: "damaged",
        seed: 10,
        slots: 8,
        unread: 60,
        damage: 10,
        ..LIFE
    },
];

/// Lists of a theme, and how many of them are long; their lengths.
const LISTS: usize = 27;
const LONG: usize = 9;

/// Every list: the papers' first, then those of each theme.
pub fn lists() -> Vec<List> {
    let mut all = crate::papers::lists();
    for theme in &THEMES {
        let mut rng = Rng::new(theme.seed);
        for n in 0..LISTS {
            let len = match n % (LISTS / LONG) {
                0 => 80 + rng.below(180),
                _ => 4 + rng.below(56),
            };
            all.push(theme.list(rng.next(), len as usize));
        }
    }
    all
}

impl Theme {
    /// A list of events, some with fields that no file can hold.
    pub fn list(&self, seed: u64, len: usize) -> List {
        self.made(Scene::new(self, Rng::new(seed)), seed, len)
    }

    /// A list of events that a file can hold.
    pub fn filed(&self, seed: u64, len: usize) -> List {
        let scene = Scene {
            filed: true,
            ..Scene::new(self, Rng::new(seed))
        };
        self.made(scene, seed, len)
    }

    fn made(&self, mut scene: Scene, seed: u64, len: usize) -> List {
        List {
            theme: self.name,
            name: format!("seed {seed:#x}, {len} events"),
            settings: scene.settings,
            events: (0..len).map(|_| scene.next()).collect(),
        }
    }

    /// A duration of the theme's own, or by its steps.
    fn duration(&self, rng: &mut Rng) -> u64 {
        match self.times {
            [] => duration(rng, self.steps),
            times => rng.pick(times),
        }
    }
}

/// An event as a file can hold it: fields of their width, those that the kind has; `kind` where its
/// own is none.
pub fn fitted(e: &Event, kind: u8) -> Event {
    let kind = match e.kind {
        1..=15 => e.kind,
        _ => kind,
    };
    let mut fields = e.fields();
    for (bit, field) in fields.iter_mut().enumerate() {
        *field *= u64::from(fields_of(kind) >> bit & 1);
        *field &= u64::MAX >> (64 - 8 * WIDTHS[bit]);
    }
    Event::of(kind, e.slot, fields)
}

/// One list on its way.
struct Scene<'a> {
    theme: &'a Theme,
    rng: Rng,
    settings: [u64; 4],
    record: Record,
    last: (Event, Reply),
    /// The slot of this event, its path's image, and the identifiers that each slot gave.
    slot: usize,
    image: Option<Image>,
    given: [Vec<u32>; SLOTS],
    now: u64,
    step: u64,
    /// What each path's open says is full, and the most bytes that the link carries.
    fulls: [u64; SLOTS],
    carries: u64,
    /// Round trips that meet, so that scores are equal or near.
    trips: [u64; 4],
    /// Opens, in a hundred, that are pinned, that fit and are preferred; their roles.
    pins: u64,
    fits: u64,
    preferred: u64,
    roles: &'static [u8],
    /// Whether a file is to hold the events.
    filed: bool,
}

impl<'a> Scene<'a> {
    fn new(theme: &'a Theme, mut rng: Rng) -> Self {
        let step = rng.pick(theme.steps);
        let settings = core::array::from_fn(|_| theme.duration(&mut rng));
        let trip = rng.pick(&[0, MS, 10 * MS, 100 * MS, (1 << 62) - 1]);
        let near = |by: u64| (trip / 10).saturating_mul(by).min((1 << 62) - 1);
        Self {
            settings,
            record: Record::new(settings).expect("durations below 2^62"),
            last: (Event::default(), (15, 0)),
            slot: 0,
            image: None,
            given: Default::default(),
            now: rng.pick(theme.starts),
            fulls: core::array::from_fn(|_| rng.pick(theme.sizes)),
            carries: 27 + (rng.next() % 65_536 >> rng.below(16)),
            trips: [trip, near(13), near(11), trip.wrapping_add(1) % (1 << 62)],
            pins: rng.pick(&[0, 0, 0, 30]),
            fits: rng.pick(&[0, 50, 100]),
            preferred: rng.pick(&[0, 25, 60]),
            roles: rng.pick(&[
                &[2_u8][..],
                &[2, 3],
                &[1, 2, 3],
                &[0],
                &[0, 1],
                &[0, 1, 2, 3],
            ]),
            filed: false,
            theme,
            rng,
            step,
        }
    }

    /// The next event, made on the record too.
    fn next(&mut self) -> Event {
        self.slot = self.rng.below(self.theme.slots) as usize;
        self.image = self.record.image(self.slot);
        let mut event = self.event();
        event.slot = self.slot as u8;
        let kind = event.kind;
        self.spoil(&mut event);
        if self.filed {
            event = fitted(&event, kind);
        }
        if self.theme.bare > 0 && self.rng.percent(self.theme.bare) {
            event.now = 0;
            event.id *= u32::from(event.kind == ANSWER);
        }
        let reply = self.record.event(&event);
        if reply.0 == 0 && matches!(event.kind, PROBE | SEARCH) {
            self.given[usize::from(event.slot)].push(reply.1 as u32);
        }
        self.last = (event, reply);
        event
    }

    /// An open where the slot is empty, most times; else the next step of a search, or any kind.
    fn event(&mut self) -> Event {
        if self.image.is_none() && !self.rng.percent(8) {
            return self.of_kind(OPEN);
        }
        if self.theme.led && self.image.is_some() && self.rng.percent(75) {
            return self.lead();
        }
        let kind = weighted(&mut self.rng, self.theme.kinds);
        self.of_kind(kind)
    }

    /// An event of a kind, the fields that it doesn't have 0.
    fn of_kind(&mut self, kind: u8) -> Event {
        let mut e = Event {
            kind,
            ..Event::default()
        };
        match kind {
            OPEN => {
                (e.len, e.flags) = (self.fulls[self.slot] as u32, self.open_flags());
                if self.rng.percent(3) {
                    e.len = self.length();
                }
            }
            PROBE => {
                (e.now, e.len) = (self.instant(), self.length());
                (e.span, e.id) = (self.due(e.now), self.rng.pick(self.theme.draws));
            }
            ANSWER => {
                (e.now, e.id) = (self.instant(), self.identifier());
                e.acked = self.acked(e.id);
            }
            POLL => (e.now, e.flags) = (self.instant(), self.rng.pick(&[0, 0, 0, 1, 1, 2])),
            SAMPLE => (e.now, e.span) = (self.instant(), self.trip()),
            FOLD => e.flags = self.rng.pick(&[0, 1, 1, 1, 1, 1, 1, 1, 1, 3]),
            PROVE => e.len = self.length(),
            SEARCH => (e.now, e.id) = (self.instant(), self.rng.pick(self.theme.draws)),
            JUDGE => (e.now, e.span) = (self.instant(), self.time()),
            HEAR => (e.now, e.len) = (self.instant(), self.length()),
            CHOOSE => e.span = self.margin(),
            _ => {}
        }
        e
    }

    /// Any numbers in fields that the kind doesn't read; any at all in some fields.
    fn spoil(&mut self, e: &mut Event) {
        let read = fields_of(e.kind);
        for field in 0..6 {
            let percent = match read >> field & 1 == 1 {
                true => self.theme.damage,
                false => self.theme.unread,
            };
            if self.rng.percent(percent) {
                let any = self.rng.wide();
                match field {
                    0 => e.now = any,
                    1 => e.span = any,
                    2 => e.id = any as u32,
                    3 => e.len = any as u32,
                    4 => e.acked = any as u32,
                    _ => e.flags = any as u8,
                }
            }
        }
        if e.kind == CHOOSE && self.rng.percent(self.theme.unread) {
            e.slot = self.rng.next() as u8;
        }
        if self.rng.percent(self.theme.damage / 2) {
            e.slot = self.rng.pick(&[8, 9, 255, 128]);
        }
        if self.rng.percent(self.theme.damage / 2) {
            e.kind = self.rng.pick(&[0, 16, 17, 255, 128]);
        }
    }

    /// The next step of a size search: prove, propose, answer what the link carries, and judge
    /// the rest once a later probe is answered.
    fn lead(&mut self) -> Event {
        let i = self.image.unwrap_or([0; 225]);
        let (next, id, out, lost) = (i[SEEK + 1], i[SEEK + 2], i[SEEK + 3], i[SEEK + 4]);
        let rests = lost != 0 && lost <= i[PROVEN + 1] + 32;
        let mut e = Event::default();
        if i[PROVEN] == 0 {
            (e.kind, e.len) = (PROVE, self.rng.pick(&[27, 27, 28, 60]));
        } else if lost > 60 && self.rng.percent(3) {
            (e.kind, e.len) = (PROVE, self.rng.near(lost - 32) as u32);
        } else if out == 0 && (i[PROVEN + 1] >= self.fulls[self.slot] || rests) {
            return self.start();
        } else if out == 0 {
            self.now = if self.rng.percent(20) {
                self.rng.near(next)
            } else {
                self.now.max(next)
            };
            (e.kind, e.now, e.id) = (SEARCH, self.now, self.rng.pick(self.theme.draws));
        } else if out <= self.carries {
            (e.kind, e.now, e.id) = (ANSWER, self.instant(), id as u32);
            e.acked = self.acked(e.id);
        } else {
            return self.lose(&i);
        }
        e
    }

    /// After a rest: a search from another size, or a path that is opened again.
    fn start(&mut self) -> Event {
        let mut e = Event::default();
        match self.rng.below(4) {
            0 => e.kind = CLOSE,
            1 => (e.kind, e.now) = (SEARCH, self.instant()),
            _ => (e.kind, e.len) = (PROVE, self.rng.pick(&[27, 28, 40, 100])),
        }
        if e.kind == PROVE && self.rng.percent(30) {
            e = Event {
                kind: FRESH,
                ..Event::default()
            };
        }
        e
    }

    /// What leads to the loss of the search probe: a later probe, its answer, and a judgement.
    fn lose(&mut self, i: &Image) -> Event {
        let mut e = Event::default();
        if answered_since(i) {
            (e.kind, e.span) = (JUDGE, self.time());
            e.now = self.rng.near(i[SEEK + 1].saturating_add(e.span));
        } else if let Some(id) = waits_since(i) {
            (e.kind, e.now, e.id) = (ANSWER, self.instant(), id as u32);
        } else {
            (e.kind, e.now) = (PROBE, self.instant());
            e.span = self.due(e.now);
        }
        e
    }

    fn open_flags(&mut self) -> u8 {
        let role = self.rng.pick(self.roles) << 2;
        let mark = |rng: &mut Rng, percent: u64, bit: u8| u8::from(rng.percent(percent)) << bit;
        let rng = &mut self.rng;
        let marks = [
            mark(rng, self.pins, 4),
            mark(rng, self.fits, 5),
            mark(rng, self.preferred, 6),
            mark(rng, 2, 7),
        ];
        marks
            .iter()
            .fold(role | rng.below(4) as u8, |all, m| all | m)
    }

    /// The clock, moved on; or an instant that the path knows, or a rule's distance from one.
    fn instant(&mut self) -> u64 {
        if self.rng.percent(self.theme.aimed) {
            let known = instants(&self.image.unwrap_or([0; 225]), self.now);
            let far = self.distance();
            let at = self.rng.pick(&known).wrapping_add(far);
            return self.rng.near(at);
        }
        if self.rng.percent(30) {
            self.step = self.rng.pick(self.theme.steps);
        }
        self.now = self.now.wrapping_add(self.step);
        self.now
    }

    /// The due instant of a probe sent at an instant: at that or after it. One in eleven is just before
    /// it, none at all, or by the clock, which may stand before or after it.
    fn due(&mut self, at: u64) -> u64 {
        let (step, cap) = (self.rng.pick(self.theme.steps), self.settings[0]);
        let far = self.rng.pick(&[0, 1, step, 3, cap, cap / 2]);
        match self.rng.below(33) {
            0 => at.saturating_sub(1),
            1 => 0,
            2 => self.now.saturating_add(far),
            _ => at.saturating_add(far),
        }
    }

    /// A distance at which some rule turns.
    fn distance(&mut self) -> u64 {
        let time = self.rng.pick(&self.settings);
        self.rng.pick(&[0, 0, 0, time, time / 6, 600 * SECOND])
    }

    /// A timeout: mostly short beside the steps.
    fn time(&mut self) -> u64 {
        match self.rng.below(12) {
            0 => self.rng.near(1 << 62),
            1 => self.theme.duration(&mut self.rng),
            2..6 => self.settings[0],
            _ => self.rng.pick(&[0, 1, self.step % (1 << 62)]),
        }
    }

    fn trip(&mut self) -> u64 {
        match self.rng.below(16) {
            0 => self.rng.near(1 << 62),
            1 => self.rng.below(200 * MS),
            2 => self.rng.wide() % (1 << 62),
            _ => self.rng.pick(&self.trips),
        }
    }

    fn margin(&mut self) -> u64 {
        const ODD: [u64; 12] = [
            0,
            0x3fe0_0000_0000_0000,
            0x3fef_ffff_ffff_ffff,
            0x3ff0_0000_0000_0001,
            0xbff0_0000_0000_0000,
            0x7ff0_0000_0000_0000,
            0xfff0_0000_0000_0000,
            0x7ff8_0000_0000_0000,
            0xfff0_0000_0000_0001,
            0x7fef_ffff_ffff_ffff,
            1,
            u64::MAX,
        ];
        match self.rng.below(12) {
            0 => self.rng.pick(&ODD),
            1..5 => 1.0_f64.to_bits(),
            5..8 => 1.3_f64.to_bits(),
            8 => 1.1_f64.to_bits(),
            9 => (1.0 + self.rng.below(1000) as f64 / 1000.0).to_bits(),
            _ => 100.0_f64.to_bits(),
        }
    }

    fn length(&mut self) -> u32 {
        let i = self.image.unwrap_or([0; 225]);
        #[rustfmt::skip]
        let known = [
            self.fulls[self.slot], self.fulls[self.slot], i[PROVEN + 1], i[PROVEN + 1] + 32,
            i[SEEK + 3], i[SEEK + 4], i[SEEK + 4].saturating_sub(32), 26, 27, 28, 65_535,
        ];
        let len = self.rng.pick(&known);
        match self.rng.below(24) {
            0 => self.rng.near(len) as u32,
            1 => self.rng.below(70_000) as u32,
            2 => 65_536,
            _ => len as u32,
        }
    }

    /// The acknowledged length: of the search probe if that is named, mostly as it was sent.
    fn acked(&mut self, id: u32) -> u32 {
        let i = self.image.unwrap_or([0; 225]);
        let out = i[SEEK + 3];
        if out == 0 || i[SEEK + 2] != u64::from(id) {
            return self.rng.pick(&[0, 0, 0, 0, 0, 65_535, 65_536]);
        }
        let proven = i[PROVEN + 1];
        match self.rng.below(16) {
            0 => self.length(),
            1 => self.rng.near(proven) as u32,
            2 => self.rng.below(out + 2) as u32,
            3 => self.rng.near(out) as u32,
            _ => out as u32,
        }
    }

    /// An identifier that is waiting or late, one given lately, or one beside it.
    fn identifier(&mut self) -> u32 {
        let i = self.image.unwrap_or([0; 225]);
        let mut known = vec![i[SEEK + 2] as u32];
        for at in (RING..IDS).step_by(5).filter(|&at| i[at] == 1) {
            known.push(i[at + 1] as u32);
        }
        let given = &self.given[self.slot];
        known.extend(&given[given.len().saturating_sub(10)..]);
        let id = self.rng.pick(&known);
        match self.rng.below(24) {
            0 => self.rng.near(id.into()) as u32,
            1 => id ^ 1 << 31,
            _ => id,
        }
    }
}
