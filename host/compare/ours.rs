//! Our `hess_events`; with the switch `standin`, the Rust's own record as it was before any fault.

use crate::clib::Reply;

#[cfg(not(standin))]
mod side {
    use super::Reply;

    unsafe extern "C" {
        fn hess_events(file: *const u8, len: usize, out: *mut u8, outlen: usize) -> Reply;
    }

    pub fn events(file: &[u8], out: &mut [u8]) -> Reply {
        // Both pointers are good for as many bytes as stand beside them, and apart.
        unsafe { hess_events(file.as_ptr(), file.len(), out.as_mut_ptr(), out.len()) }
    }
}

#[cfg(standin)]
mod side {
    use super::Reply;

    pub fn events(file: &[u8], out: &mut [u8]) -> Reply {
        let (number, value) = clean::proto::path::eventfile::run_events(file, out);
        Reply { number, value }
    }
}

/// Bytes past the lent ones, which must stay.
const PAST: usize = 40;

/// What ours makes of a file, in bytes that are kept from call to call.
#[derive(Default)]
pub struct Ours {
    bytes: Vec<u8>,
}

impl Ours {
    /// The reply, and all lent bytes where it is accepted. An error says what was written that
    /// should not have been.
    pub fn run(&mut self, file: &[u8], lent: usize) -> Result<(Reply, &[u8]), String> {
        let fill = lent as u8 | 0x81;
        self.bytes.clear();
        self.bytes.resize(lent + PAST, fill);
        let reply = side::events(file, &mut self.bytes[..lent]);
        let written = match reply.number {
            0 => reply.value as usize,
            _ => 0,
        };
        if written > lent {
            return Err(format!("ours says {written} of {lent} lent bytes"));
        }
        if let Some(at) = (written..lent + PAST).find(|&at| self.bytes[at] != fill) {
            return Err(format!("ours ({reply:?}) changes byte {at} of {lent} lent"));
        }
        Ok((reply, &self.bytes[..written]))
    }
}
