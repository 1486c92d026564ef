//! Files of events in words, a line for each record, and back. It reads document 01's layout by itself:
//! no other file of host/ and none of the Rust's sources is needed.
//!
//!     settings cap 1s gap 1s window 1s horizon 1s
//!     open 0 full 100 flags ble,never,fits
//!     probe 0 due 9 draw 7
//!     choose 0 margin 1.5
//!
//! A field that is not named is absent. `bytes 40 10 00` stands for any bytes at all, so that every
//! file has its words.

/// A field by its map bit, and its name in one kind of record.
type Field = (usize, &'static str);

/// Kinds from 1 on: their names and fields.
const KINDS: [(&str, &[Field]); 15] = [
    ("open", &[(3, "full"), (5, "flags")]),
    (
        "probe",
        &[(0, "now"), (1, "due"), (2, "draw"), (3, "length")],
    ),
    ("answer", &[(0, "now"), (2, "id"), (4, "acked")]),
    ("poll", &[(0, "now"), (5, "overdue")]),
    ("sample", &[(0, "now"), (1, "rtt")]),
    ("fold", &[(5, "delivered")]),
    ("prove", &[(3, "length")]),
    ("search", &[(0, "now"), (2, "draw")]),
    ("judge", &[(0, "now"), (1, "timeout")]),
    ("data", &[(0, "now"), (3, "length")]),
    ("fresh", &[]),
    ("thaw", &[]),
    ("sweep", &[]),
    ("close", &[]),
    ("choose", &[(1, "margin")]),
];
const WIDTHS: [usize; 6] = [8, 8, 4, 2, 2, 1];
const SETTINGS: [&str; 4] = ["cap", "gap", "window", "horizon"];
/// An open's flags: the medium and the role by their numbers, then marks by their bits.
const MEDIA: [&str; 4] = ["ble", "wired", "wireless", "unknown"];
const ROLES: [&str; 4] = ["never", "backup", "normal", "preferred"];
const MARKS: [(&str, u64); 3] = [("pinned", 16), ("fits", 32), ("preferred", 64)];
/// Units of times.
const UNITS: [(&str, u64); 4] = [
    ("ns", 1),
    ("us", 1_000),
    ("ms", 1_000_000),
    ("s", 1_000_000_000),
];

/// Whether a field is an instant or a duration.
fn timed(name: &str) -> bool {
    ["now", "due", "rtt", "timeout"].contains(&name) || SETTINGS.contains(&name)
}

/// A file in words.
pub fn words(file: &[u8]) -> String {
    let Some((settings, mut rest)) = file.split_at_checked(32) else {
        return raw(file, "settings cut short: 13");
    };
    let mut text = "settings".to_string();
    for (name, bytes) in SETTINGS.iter().zip(settings.chunks(8)) {
        text += &format!(" {name} {}", shown(name, number(bytes)));
    }
    text.push('\n');
    while !rest.is_empty() {
        match record_words(rest) {
            Ok((line, len)) => {
                text += &line;
                rest = &rest[len..];
            }
            Err(why) => return text + &raw(rest, why),
        }
        text.push('\n');
    }
    text
}

/// Any bytes, and why they are no record.
fn raw(bytes: &[u8], why: &str) -> String {
    let hex: Vec<_> = bytes.iter().map(|b| format!("{b:02x}")).collect();
    format!("bytes {}  # {why}\n", hex.join(" "))
}

fn number(bytes: &[u8]) -> u64 {
    let mut wide = [0; 8];
    wide[..bytes.len()].copy_from_slice(bytes);
    u64::from_le_bytes(wide)
}

/// The record that these bytes begin with, and its length; or why there is none.
fn record_words(bytes: &[u8]) -> Result<(String, usize), &'static str> {
    let map = bytes[0];
    let stand = || (0..6).filter(|bit| map >> bit & 1 == 1);
    let len = 3 + stand().map(|bit| WIDTHS[bit]).sum::<usize>();
    if bytes.len() < len {
        return Err("a record cut short: 13");
    }
    let kind = usize::from(bytes[1]).wrapping_sub(1);
    let (name, fields) = KINDS.get(kind).ok_or("no such kind: 15")?;
    let mut line = format!("{name} {}", bytes[2]);
    let mut rest = &bytes[3..len];
    for bit in stand() {
        let field = fields.iter().find(|field| field.0 == bit);
        let (_, name) = field.ok_or("a map bit that the kind has not: 14")?;
        let (now, later) = rest.split_at(WIDTHS[bit]);
        line += &format!(" {name} {}", shown(name, number(now)));
        rest = later;
    }
    match map >> 6 {
        0 => Ok((line, len)),
        _ => Err("a map bit that the kind has not: 14"),
    }
}

/// A field's number in words.
fn shown(name: &str, number: u64) -> String {
    let unit = UNITS
        .iter()
        .rev()
        .find(|(_, by)| *by >= 1_000_000 && number % by == 0);
    match (name, unit) {
        ("margin", _) => margin(number),
        ("flags", _) if number < 128 => flags(number),
        (name, Some((unit, by))) if timed(name) && number > 0 => format!("{}{unit}", number / by),
        _ => number.to_string(),
    }
}

/// A float by its bits, where the float's words say all of them.
fn margin(bits: u64) -> String {
    let text = f64::from_bits(bits).to_string();
    match text.parse::<f64>() {
        Ok(x) if x.is_finite() && x.to_bits() == bits => text,
        _ => format!("{bits:#x}"),
    }
}

fn flags(flags: u64) -> String {
    let place = |by: u32| (flags >> by & 3) as usize;
    let mut text = format!("{},{}", MEDIA[place(0)], ROLES[place(2)]);
    for (name, bit) in MARKS {
        if flags & bit != 0 {
            text += &format!(",{name}");
        }
    }
    text
}

/// The file that the words stand for, or the line that is none and why.
pub fn file(text: &str) -> Result<Vec<u8>, String> {
    let mut out = Vec::new();
    for (n, line) in text.lines().enumerate() {
        let line = line.split('#').next().unwrap_or("");
        let words: Vec<&str> = line.split_whitespace().collect();
        if let Some((first, rest)) = words.split_first() {
            put(first, rest, &mut out).map_err(|why| format!("line {}: {why}", n + 1))?;
        }
    }
    Ok(out)
}

/// Put one line's bytes behind the others.
fn put(first: &str, rest: &[&str], out: &mut Vec<u8>) -> Result<(), String> {
    if first == "bytes" {
        for word in rest {
            out.push(u8::from_str_radix(word, 16).map_err(|_| format!("{word}: no byte"))?);
        }
        return Ok(());
    }
    if first == "settings" {
        for name in SETTINGS {
            out.extend(
                named(rest, name)?
                    .ok_or(format!("no {name}"))?
                    .to_le_bytes(),
            );
        }
        return known(rest, &SETTINGS);
    }
    let kind = KINDS.iter().position(|(name, _)| *name == first);
    let kind = kind.ok_or(format!("{first}: no such event"))?;
    let (slot, rest) = rest.split_first().ok_or("no slot".to_string())?;
    let slot: u8 = slot.parse().map_err(|_| format!("{slot}: no slot"))?;
    let head = out.len();
    out.extend([0, kind as u8 + 1, slot]);
    let fields = KINDS[kind].1;
    for &(bit, name) in fields {
        if let Some(value) = named(rest, name)? {
            if WIDTHS[bit] < 8 && value >> (8 * WIDTHS[bit]) != 0 {
                return Err(format!("{name} {value}: more than {} bytes", WIDTHS[bit]));
            }
            out[head] |= 1 << bit;
            out.extend(&value.to_le_bytes()[..WIDTHS[bit]]);
        }
    }
    let names: Vec<_> = fields.iter().map(|field| field.1).collect();
    known(rest, &names)
}

/// Names and numbers in turn, each name one of these.
fn known(words: &[&str], names: &[&str]) -> Result<(), String> {
    match words.iter().step_by(2).find(|word| !names.contains(word)) {
        Some(word) => Err(format!("{word}: no such field here")),
        None => Ok(()),
    }
}

/// The number behind a name, if it is there.
fn named(words: &[&str], name: &str) -> Result<Option<u64>, String> {
    let Some(at) = words.iter().step_by(2).position(|word| *word == name) else {
        return Ok(None);
    };
    let word = words.get(2 * at + 1).ok_or(format!("{name}: no number"))?;
    let value = read(name, word).ok_or(format!("{name} {word}: no number"))?;
    Ok(Some(value))
}

/// A field's number from its word.
fn read(name: &str, word: &str) -> Option<u64> {
    if let Some(hex) = word.strip_prefix("0x") {
        return u64::from_str_radix(hex, 16).ok();
    }
    if name == "margin" {
        return word.parse().ok().map(f64::to_bits);
    }
    if name == "flags" && word.contains(',') {
        return flags_of(word);
    }
    let digits = word.trim_end_matches(|c: char| c.is_ascii_alphabetic());
    let by = match &word[digits.len()..] {
        "" => 1,
        unit if timed(name) => UNITS.iter().find(|(name, _)| *name == unit)?.1,
        _ => return None,
    };
    digits.parse::<u64>().ok()?.checked_mul(by)
}

fn flags_of(word: &str) -> Option<u64> {
    let mut names = word.split(',');
    let (medium, role) = (names.next()?, names.next()?);
    let place = |all: [&str; 4], name| all.iter().position(|one| *one == name);
    let mut flags = place(MEDIA, medium)? as u64 | (place(ROLES, role)? as u64) << 2;
    for name in names {
        flags |= MARKS.iter().find(|(mark, _)| *mark == name)?.1;
    }
    Some(flags)
}
