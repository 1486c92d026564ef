//! Document 01's five events on a fresh record: the replies, and the standing of the open slot. docs/ENTRIES.md has the
//! layouts.

#[repr(C)]
struct Reply {
    number: u64,
    value: u64,
}

unsafe extern "C" {
    fn hess_events(file: *const u8, len: usize, out: *mut u8, outlen: usize) -> Reply;
}

/// Runs the events of a file, of which there are so many: the replies and the standings, or the refusal number.
fn run(file: &[u8], events: usize) -> Result<Vec<u8>, u64> {
    // a reply for each event; eight standings of at most 51 bytes with their slots
    let mut out = vec![0; 16 * events + 8 * 52];
    let reply = unsafe { hess_events(file.as_ptr(), file.len(), out.as_mut_ptr(), out.len()) };
    if reply.number != 0 {
        return Err(reply.number);
    }
    out.truncate(reply.value as usize);
    Ok(out)
}

/// An event record: which fields follow, the kind, slot 0, then the fields, each with its bytes.
fn event(map: u8, kind: u8, fields: &[&[u8]]) -> Vec<u8> {
    [&[map, kind, 0][..], &fields.concat()].concat()
}

/// Four settings of 1 s, then the five events.
fn five_events() -> Vec<u8> {
    let mut file = 1_000_000_000u64.to_le_bytes().repeat(4);
    file.extend(event(40, 1, &[&100u16.to_le_bytes(), &[32]])); // open: length and flags
    file.extend(event(6, 2, &[&9u64.to_le_bytes(), &7u32.to_le_bytes()])); // probe: due and draw
    file.extend(event(4, 3, &[&7u32.to_le_bytes()])); // answer 7, twice
    file.extend(event(4, 3, &[&7u32.to_le_bytes()]));
    file.extend(event(2, 15, &[&1f64.to_bits().to_le_bytes()])); // choose: the margin's bits
    file
}

/// Takes a number of so many bytes, the lowest first.
fn take(at: &mut &[u8], bytes: usize) -> u64 {
    let (front, rest) = at.split_at(bytes);
    *at = rest;
    front.iter().rev().fold(0, |x, b| x << 8 | u64::from(*b))
}

/// Takes a standing and prints the fields that it has.
fn print_standing(at: &mut &[u8]) {
    let fields =
        [("last RTT", 8), ("least RTT", 8), ("base RTT", 8), ("proven", 2), ("answered", 4), ("quiet since", 8)];
    let map = take(at, 1);
    for (i, (name, bytes)) in fields.into_iter().enumerate() {
        if map >> i & 1 == 1 {
            print!(" {name} {},", take(at, bytes));
        }
    }
    print!(" ETX {},", f64::from_bits(take(at, 8)));
    println!(" misses {}", take(at, 4));
}

fn main() {
    let out = run(&five_events(), 5).expect("a whole file, enough bytes");
    let mut at = &out[..];
    for i in 1..=5 {
        println!("event {i}: refusal {}, value {}", take(&mut at, 8), take(&mut at, 8));
    }
    while !at.is_empty() {
        print!("slot {}:", take(&mut at, 1));
        print_standing(&mut at);
    }
}
