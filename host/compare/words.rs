//! `words write` turns words into a file of events, `words read` a file of events into words; standard
//! input to standard output.

mod wording;

use std::io::{Read, Write};

fn main() -> std::process::ExitCode {
    let mut given = Vec::new();
    std::io::stdin()
        .read_to_end(&mut given)
        .expect("standard input");
    let made = match std::env::args().nth(1).as_deref() {
        Some("read") => Ok(wording::words(&given).into_bytes()),
        Some("write") => String::from_utf8(given)
            .map_err(|_| "not text".to_string())
            .and_then(|text| wording::file(&text)),
        _ => Err("write | read".to_string()),
    };
    match made {
        Ok(bytes) => {
            std::io::stdout()
                .write_all(&bytes)
                .expect("standard output");
            0.into()
        }
        Err(why) => {
            eprintln!("words: {why}");
            1.into()
        }
    }
}
