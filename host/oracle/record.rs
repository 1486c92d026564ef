//! Document 01's peer record over the unchanged `Liveness` and `choose`: the reference of the
//! fifteen events. Written from "Peer record" and its table alone; nothing of it is the Rust's. 23, a
//! probe whose due instant lies before its now, is document 02's (T-09).

use super::Role;
use super::live::{Answer, Liveness};
use super::script::{Image, duration, length, whole};
use super::select::{self, Field, Rival};
use super::set::{Medium, PATH_MAX_PER_PEER};

/// Slots of a record.
pub const SLOTS: usize = PATH_MAX_PER_PEER;

/// One event, with the fields of a file's record. A field that its kind doesn't have is not read.
#[derive(Clone, Copy, Debug, Default, PartialEq, Eq)]
pub struct Event {
    pub kind: u8,
    pub slot: u8,
    pub now: u64,
    /// A due instant, an RTT, a timeout or a margin's bits.
    pub span: u64,
    /// A draw or an identifier.
    pub id: u32,
    pub len: u32,
    pub acked: u32,
    pub flags: u8,
}

impl Event {
    /// An event by its fields in the file's order, each as wide as it is here.
    pub fn of(kind: u8, slot: u8, fields: [u64; 6]) -> Self {
        let [now, span, id, len, acked, flags] = fields;
        Self {
            kind,
            slot,
            now,
            span,
            id: id as u32,
            len: len as u32,
            acked: acked as u32,
            flags: flags as u8,
        }
    }

    /// Its fields in the file's order.
    pub fn fields(&self) -> [u64; 6] {
        let (id, len, acked) = (self.id.into(), self.len.into(), self.acked.into());
        [self.now, self.span, id, len, acked, self.flags.into()]
    }
}

/// Number and value.
pub type Reply = (u64, u64);

/// A value, or the refusal.
type Answered = Result<u64, u64>;

/// What a choice may hang on.
#[derive(Clone, Copy, Debug, PartialEq, Eq)]
pub enum Mark {
    Pinned,
    Tier,
    Fits,
    Preferred,
    Medium,
}

/// A path, and what its open said of it.
#[derive(Clone)]
struct Slot {
    live: Liveness<u64>,
    full: usize,
    medium: Medium,
    role: Role,
    pinned: bool,
    fits: bool,
    preferred: bool,
}

/// Settings, cap, gap, window and horizon, and eight slots.
#[derive(Clone)]
pub struct Record {
    settings: [u64; 4],
    slots: [Option<Slot>; SLOTS],
}

fn bit(flags: u8, n: u8) -> bool {
    flags >> n & 1 == 1
}

impl Slot {
    /// The slot as an open makes it.
    fn new(full: usize, flags: u8) -> Self {
        const MEDIA: [Medium; 4] = [
            Medium::Ble,
            Medium::Wired,
            Medium::Wireless,
            Medium::Unknown,
        ];
        const ROLES: [Role; 4] = [Role::Never, Role::Backup, Role::Normal, Role::Preferred];
        Self {
            live: Liveness::new(),
            full,
            medium: MEDIA[usize::from(flags & 3)],
            role: ROLES[usize::from(flags >> 2 & 3)],
            pinned: bit(flags, 4),
            fits: bit(flags, 5),
            preferred: bit(flags, 6),
        }
    }

    /// The path as a rival: it has a score from its first sample on.
    fn rival(&self, index: usize) -> Rival {
        Rival {
            index,
            score: select::score(&self.live),
            rtt: self.live.rtt(),
            steady: select::steady(&self.live),
            base: self.live.base_rtt(),
            tier: select::tier(self.role),
            preferred: self.preferred,
            pinned: self.pinned,
            fits: self.fits,
            medium: self.medium,
        }
    }
}

impl Record {
    /// A fresh record by cap, gap, window, horizon; 6 for a setting of 2^62 or more.
    pub fn new(settings: [u64; 4]) -> Result<Self, u64> {
        for setting in settings {
            duration(setting)?;
        }
        Ok(Self {
            settings,
            slots: [const { None }; SLOTS],
        })
    }

    /// The settings that are handed in with the events from now on, any numbers: an event tries those
    /// that its kind reads.
    pub fn hand(&mut self, settings: [u64; 4]) {
        self.settings = settings;
    }

    /// One event: its number and value. A refused one leaves the record as it was.
    pub fn event(&mut self, e: &Event) -> Reply {
        self.answer_to(e)
            .map_or_else(|no| (no, 0), |value| (0, value))
    }

    /// 15; then choose, which reads no slot; then 1, 2 or 3, 4, 5, 6, 23 and the work.
    fn answer_to(&mut self, e: &Event) -> Answered {
        match e.kind {
            1..=14 => {}
            15 => return self.choose(f64::from_bits(e.span)),
            _ => return Err(15),
        }
        let at = usize::from(e.slot);
        if at >= SLOTS {
            return Err(1);
        }
        match (e.kind, &self.slots[at]) {
            (1, Some(_)) => return Err(3),
            (2.., None) => return Err(2),
            _ => {}
        }
        // Flag bits with a meaning: of open seven, of poll and fold one. Others read no flags.
        let flags = match e.kind {
            1 => 7,
            4 | 6 => 1,
            _ => 8,
        };
        if u32::from(e.flags) >> flags != 0 {
            return Err(4);
        }
        match e.kind {
            1 => {
                let full = whole(e.len.into())?;
                self.slots[at] = Some(Slot::new(full, e.flags));
                Ok(0)
            }
            14 => {
                self.slots[at] = None;
                Ok(0)
            }
            _ => self.work(at, e),
        }
    }

    /// What an event does on a path that is open.
    fn work(&mut self, at: usize, e: &Event) -> Answered {
        let [cap, gap, window, horizon] = self.settings;
        let Some(slot) = &mut self.slots[at] else {
            return Err(2);
        };
        let live = &mut slot.live;
        match e.kind {
            2 => {
                let len = length(e.len.into())?;
                // The Rust's `send` takes any due instant: 23 is tried before it, and so before its 8.
                if e.span < e.now {
                    return Err(23);
                }
                let id = live.send(e.now, e.span, len, || e.id);
                return id.map(u64::from).ok_or(8);
            }
            3 => return answer(live, e, gap),
            4 => {
                let overdue = bit(e.flags, 0);
                let cap = duration(cap)?;
                let lapses = core::iter::from_fn(|| live.expire(e.now, overdue, cap));
                return Ok(lapses.count() as u64);
            }
            5 => {
                let (window, horizon) = (duration(window)?, duration(horizon)?);
                live.sample(e.now, duration(e.span)?, window, horizon);
            }
            6 => live.fold(bit(e.flags, 0)),
            7 => {
                live.prove(whole(e.len.into())?);
            }
            8 => {
                let len = live.seek_size(slot.full, e.now).ok_or(10u64)?;
                return Ok(live.seek_send(e.now, len, || e.id).into());
            }
            9 => {
                let out = live.seeking();
                live.seek_judge(e.now, duration(e.span)?, duration(gap)?);
                return Ok((out && !live.seeking()).into());
            }
            10 => {
                live.heard(length(e.len.into())?, e.now);
                live.carried(e.now);
            }
            11 => live.fresh(),
            12 => live.thaw(),
            13 => {
                let swept = live.outstanding();
                live.clear();
                return Ok(swept as u64);
            }
            _ => return Err(15),
        }
        Ok(0)
    }

    fn choose(&self, margin: f64) -> Answered {
        if !(margin.is_finite() && margin >= 1.0) {
            return Err(7);
        }
        let rival = |at: usize| self.slots[at].as_ref().map(|slot| slot.rival(at));
        let field: Field = core::array::from_fn(rival);
        select::choose(&field, margin).map_or(Err(11), |at| Ok(at as u64))
    }

    /// The record with one of the open's marks taken from every slot, to see what hangs on it.
    pub fn without(&self, mark: Mark) -> Self {
        let mut other = self.clone();
        for slot in other.slots.iter_mut().flatten() {
            match mark {
                Mark::Pinned => slot.pinned = false,
                Mark::Tier => slot.role = Role::Normal,
                Mark::Fits => slot.fits = false,
                Mark::Preferred => slot.preferred = false,
                Mark::Medium => slot.medium = Medium::Unknown,
            }
        }
        other
    }

    /// The settings in nanoseconds: cap, gap, window, horizon.
    pub fn settings(&self) -> [u64; 4] {
        self.settings
    }

    /// What the open of a slot said: its full size, and its flags.
    pub fn label(&self, slot: usize) -> Option<[u64; 2]> {
        self.slots[slot].as_ref().map(|slot| {
            let medium = match slot.medium {
                Medium::Ble => 0,
                Medium::Wired => 1,
                Medium::Wireless => 2,
                Medium::Unknown => 3,
            };
            let role = match slot.role {
                Role::Never => 0,
                Role::Backup => 1,
                Role::Normal => 2,
                Role::Preferred => 3,
            };
            let marks = [slot.pinned, slot.fits, slot.preferred].map(u64::from);
            let flags = medium + 4 * role + 16 * marks[0] + 32 * marks[1] + 64 * marks[2];
            [slot.full as u64, flags]
        })
    }

    /// The path in a slot, if it is open.
    pub(super) fn path(&self, slot: usize) -> Option<&Liveness<u64>> {
        self.slots[slot].as_ref().map(|slot| &slot.live)
    }

    /// Every field of the path in a slot, if it is open.
    pub fn image(&self, slot: usize) -> Option<Image> {
        self.slots[slot].as_ref().map(|slot| slot.live.image())
    }
}

/// The search probe first, then ring and late list: 3 search, 1 in time, 2 late.
fn answer(live: &mut Liveness<u64>, e: &Event, gap: u64) -> Answered {
    let (acked, gap) = (length(e.acked.into())?, duration(gap)?);
    if let Some(sent) = live.seek_answer(e.id, gap) {
        live.seek_proved(sent, acked, e.now);
        return Ok(3);
    }
    match live.answer(e.id) {
        Some(Answer::InTime(_)) => Ok(1),
        Some(Answer::Late(_)) => Ok(2),
        None => Err(9),
    }
}
