//! The rules of SRV and TXT records, which concern no driver. They look nothing up: what the resolver told is handed in.

use crate::values::Error;
use mdb_sys as c;

/// What becomes of a found host that is in another domain.
#[derive(Clone, Copy, Debug, PartialEq, Eq)]
pub enum Strangers {
    /// The whole lookup is refused ("Initial DNS Seedlist Discovery").
    Refuse = 0,
    /// The host is left out ("Polling SRV Records for mongos Discovery").
    LeftOut = 1,
}

/// Why there is no answer.
#[derive(Clone, Debug, PartialEq, Eq)]
#[non_exhaustive]
pub enum Refusal {
    /// The records break a rule, which the text names.
    Records(String),
    /// A text or a number means nothing, or there was no memory.
    Call(Error),
}

impl std::fmt::Display for Refusal {
    fn fmt(&self, f: &mut std::fmt::Formatter<'_>) -> std::fmt::Result {
        match self {
            Refusal::Records(why) => f.write_str(why),
            Refusal::Call(error) => error.fmt(f),
        }
    }
}

impl std::error::Error for Refusal {
    fn source(&self) -> Option<&(dyn std::error::Error + 'static)> {
        match self {
            Refusal::Records(_) => None,
            Refusal::Call(error) => Some(error),
        }
    }
}

/// The hosts of an SRV lookup of the name that are in its domain, in their order. `found` are those that the records name, as `a.b.c:27017`, with commas
/// between them; so is the answer.
///
/// # Errors
///
/// `Records` where the lookup is refused, also where no host is left.
pub fn accepted_hosts(name: &str, found: &str, strangers: Strangers) -> Result<String, Refusal> {
    // SAFETY: slices with their lengths, a buffer with its length, and a number of its own.
    text(|out, room, needed| unsafe { c::mdb_srv_hosts(name.as_ptr(), name.len(), found.as_ptr(), found.len(), strangers as u32, out, room, needed) })
}

/// What the TXT records of the name set, as a connection string has its options, each behind `&`. A record is its strings, joined.
///
/// # Errors
///
/// `Records` where there is more than one record, or it says anything else.
pub fn txt_options(name: &str, records: &[&[u8]]) -> Result<String, Refusal> {
    let (count, first) = (records.len().min(2) as u32, records.first().copied().unwrap_or(&[]));
    // SAFETY: as in `accepted_hosts`.
    text(|out, room, needed| unsafe { c::mdb_srv_txt(name.as_ptr(), name.len(), count, first.as_ptr(), first.len(), out, room, needed) })
}

/// After how many seconds the records are looked up again, where so many hosts of the last lookup were accepted, 0 where it failed.
pub fn rescan_seconds(accepted: u32, ttl: u32, heartbeat: u64) -> u64 {
    // SAFETY: it takes numbers alone.
    unsafe { c::mdb_srv_rescan(accepted, ttl, heartbeat) }
}

// The text that the call writes, or that of its refusal, with a larger buffer where it does not fit.
fn text(mut call: impl FnMut(*mut u8, usize, *mut usize) -> u32) -> Result<String, Refusal> {
    let mut out = vec![0; 1024];
    let mut needed = 0;
    loop {
        let answer = Error::check(call(out.as_mut_ptr(), out.len(), &mut needed));
        match answer {
            Err(Error::NoRoom) => out.resize(needed, 0),
            Ok(()) | Err(Error::BadRecords) => {
                out.truncate(needed);
                let said = String::from_utf8(out).map_err(|_| Refusal::Call(Error::Unknown(u32::MAX)))?;
                return if answer.is_ok() { Ok(said) } else { Err(Refusal::Records(said)) };
            }
            Err(error) => return Err(Refusal::Call(error)),
        }
    }
}
