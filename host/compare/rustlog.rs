//! `pathlog` over the Rust's record: standard input by 64 KB, the same lines to standard output.

use oracle::proto::path::eventfile::{Next, SETTINGS, opened, put_line, record_at};
use oracle::proto::path::record::Record;
use std::io::{BufWriter, Read, Result, StdinLock, Write};

const PORTION: usize = 65_536;

/// What was read and is not used yet.
struct Input {
    from: StdinLock<'static>,
    bytes: Vec<u8>,
    at: usize,
    ended: bool,
}

impl Input {
    fn rest(&self) -> &[u8] {
        &self.bytes[self.at..]
    }

    /// Read some more behind what is left.
    fn fill(&mut self) -> Result<()> {
        self.bytes.drain(..self.at);
        self.at = 0;
        let left = self.bytes.len();
        self.bytes.resize(left + PORTION, 0);
        let more = self.from.read(&mut self.bytes[left..])?;
        self.bytes.truncate(left + more);
        self.ended = more == 0;
        Ok(())
    }
}

fn main() -> Result<()> {
    let mut out = BufWriter::with_capacity(PORTION, std::io::stdout().lock());
    let mut input = Input {
        from: std::io::stdin().lock(),
        bytes: Vec::new(),
        at: 0,
        ended: false,
    };
    while input.rest().len() < SETTINGS && !input.ended {
        input.fill()?;
    }
    match opened(input.rest()) {
        Err(why) => put_line(&mut out, 0, 0, (why, 0))?,
        Ok(record) => {
            input.at = SETTINGS;
            lines(record, &mut input, &mut out)?;
        }
    }
    out.flush()
}

/// A line for each record.
fn lines(mut record: Record, input: &mut Input, out: &mut impl Write) -> Result<()> {
    let mut number = 1;
    loop {
        match record_at(input.rest()) {
            Next::Event(event, len) => {
                put_line(out, number, event.kind, record.event(&event))?;
                input.at += len;
                number += 1;
            }
            Next::End | Next::Bad(13, _) if !input.ended => input.fill()?,
            Next::End => return Ok(()),
            Next::Bad(why, kind) => return put_line(out, number, kind, (why, 0)),
        }
    }
}
