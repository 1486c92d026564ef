//! The calls of a script and the words of an image, by name.

use oracle::proto::path::script::Call;

/// What a word of a call stands for.
#[derive(Clone, Copy, PartialEq, Eq)]
pub enum Arg {
    At,
    Due,
    Time,
    Len,
    Id,
    Draw,
    Flag,
    Count,
}

use Arg::{At, Count, Draw, Due, Flag, Id, Len, Time};

/// A call's name and its arguments.
pub type Op = (&'static str, &'static [(&'static str, Arg)]);

/// The calls, each at its number.
#[rustfmt::skip]
pub const OPS: [Op; 51] = [
    ("new", &[]),
    ("take_id", &[("draw", Draw)]),
    ("send", &[("at", At), ("due", Due), ("len", Len), ("draw", Draw)]),
    ("answer", &[("id", Id)]),
    ("expire", &[("now", At), ("overdue", Flag), ("cap", Time)]),
    ("lapse", &[("id", Id), ("at", At), ("due", Due), ("len", Len)]),
    ("room", &[("cap", Count)]),
    ("fresh", &[]),
    ("thaw", &[]),
    ("clear", &[]),
    ("size", &[("full", Len)]),
    ("sample", &[("now", At), ("rtt", Time), ("window", Time), ("horizon", Time)]),
    ("fold", &[("delivered", Flag)]),
    ("prove", &[("len", Len)]),
    ("seek_size", &[("full", Len), ("now", At)]),
    ("seek_send", &[("at", At), ("len", Len), ("draw", Draw)]),
    ("seek_ring", &[("at", At), ("due", Due), ("gap", Time), ("len", Len), ("draw", Draw)]),
    ("seek_answer", &[("id", Id), ("gap", Time)]),
    ("seek_proved", &[("sent", Len), ("acked", Len), ("now", At)]),
    ("seek_judge", &[("now", At), ("timeout", Time), ("gap", Time)]),
    ("halt", &[("at", At), ("active", Flag)]),
    ("spend", &[("at", At)]),
    ("owe", &[]),
    ("rebase", &[("at", At), ("ok", Flag)]),
    ("timeout", &[("floor", Time), ("cap", Time)]),
    ("heard", &[("len", Len), ("now", At)]),
    ("carried", &[("now", At)]),
    ("shed", &[("len", Len)]),
    ("stopped", &[]),
    ("held", &[]),
    ("recheck", &[]),
    ("outstanding", &[]),
    ("samples", &[]),
    ("min_rtt", &[]),
    ("max_rtt", &[]),
    ("base_rtt", &[]),
    ("earliest_due", &[]),
    ("score", &[]),
    ("steady", &[]),
    ("misses", &[]),
    ("rtt", &[]),
    ("etx", &[]),
    ("mtu", &[]),
    ("frames", &[]),
    ("bytes", &[]),
    ("heard_at", &[]),
    ("data_at", &[]),
    ("quiet", &[]),
    ("matching", &[("id", Id)]),
    ("send_ref", &[("at", At), ("due", Due), ("len", Len), ("draw", Draw)]),
    ("answer_ref", &[("id", Id)]),
];

/// A call's number by its name.
pub fn op(name: &str) -> u64 {
    let at = OPS.iter().position(|&(n, _)| n == name);
    at.expect("a call of this name") as u64
}

/// One call in words for people.
pub fn show(call: &Call) -> String {
    let Some(&(name, args)) = OPS.get(call[0].min(99) as usize) else {
        return format!("call {}", call[0]);
    };
    let mut line = name.to_string();
    for (n, word) in call[1..].iter().enumerate() {
        match args.get(n) {
            Some((arg, _)) => line += &format!(" {arg} {word}"),
            None if *word != 0 => line += &format!(" (unused {word})"),
            None => {}
        }
    }
    line
}

/// Where the image's parts start.
pub const RING: usize = 0;
pub const LATE: usize = 40;
pub const IDS: usize = 60;
pub const QUIET: usize = 68;
pub const STOP: usize = 70;
pub const LAST: usize = 78;
pub const PROVEN: usize = 81;
pub const SEEK: usize = 83;
pub const HEARD: usize = 90;
pub const DATA: usize = 92;
pub const SAMPLES: usize = 96;
pub const SPANS: usize = 192;

/// The name of an image's word.
pub fn field(n: usize) -> String {
    const SENT: [&str; 5] = ["used", "probe_id", "at", "due", "len"];
    #[rustfmt::skip]
    const MIDDLE: [&str; 36] = [
        "next_id?", "next_id", "answered?", "answered", "epoch?", "epoch", "since?", "since",
        "quiet?", "quiet", "stop?", "stop.free", "stop.gap", "stop.used", "stop.until?",
        "stop.until", "stop.owed", "misses", "last?", "last", "fallen", "proven?", "proven",
        "seek.at?", "seek.at", "seek.probe_id", "seek.len", "seek.lost", "frames", "bytes",
        "heard_at?", "heard_at", "data_at?", "data_at", "rtt?", "rtt",
    ];
    match n {
        0..40 => format!("ring[{}].{}", n / 5, SENT[n % 5]),
        40..60 => format!("late[{}].{}", (n - 40) / 5, SENT[n % 5]),
        60..96 => MIDDLE[n - 60].to_string(),
        96..192 => format!("samples[{}].{}", (n - 96) / 3, ["used", "at", "rtt"][n % 3]),
        192..224 => format!(
            "spans[{}].{}",
            (n - 192) / 4,
            ["used", "from", "to", "rtt"][n % 4]
        ),
        _ => "etx".to_string(),
    }
}
