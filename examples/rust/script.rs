//! Single functions; and, by the function of the test's own library, calls on one path in a script: a probe is sent and
//! answered. docs/ENTRIES.md has the calls.

#[repr(C)]
struct Reply {
    number: u64,
    value: u64,
}

unsafe extern "C" {
    safe fn hess_after(a: u32, b: u32) -> bool;
    safe fn hess_deadline(t: u64, d: u64) -> Reply;
    fn hess_script(script: *const u8, len: usize, out: *mut u8, outlen: usize) -> u64;
}

/// Runs a script: the answers and the image, or the refusal number.
fn run(script: &[u8]) -> Result<Vec<u8>, u64> {
    let mut out = vec![0; script.len() + 1800];
    match unsafe { hess_script(script.as_ptr(), script.len(), out.as_mut_ptr(), out.len()) } {
        0 => Ok(out),
        number => Err(number),
    }
}

fn main() {
    println!("identifier 0 after 2^32 - 1: {}", hess_after(0, u32::MAX));
    let late = hess_deadline(u64::MAX - 10, 25);
    println!("25 after 2^64 - 11: refusal {}, 2^64 - {}", late.number, late.value.wrapping_neg());

    // send at 5, due at 9, 100 bytes, first identifier 7; answer 7
    let calls: [[u64; 6]; 2] = [[2, 5, 9, 100, 7, 0], [3, 7, 0, 0, 0, 0]];
    let script: Vec<u8> = calls.iter().flatten().flat_map(|w| w.to_le_bytes()).collect();
    let out = run(&script).expect("whole calls, enough bytes");
    let word = |n: usize| u64::from_le_bytes(out[8 * n..8 * n + 8].try_into().unwrap());
    println!("send: identifier {}", word(1));
    println!("answer: {}, probe {}", if word(7) == 1 { "in time" } else { "late" }, word(8));
    println!("the image: next identifier {}", word(12 + 61));
}
