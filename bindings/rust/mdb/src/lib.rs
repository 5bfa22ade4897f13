//! A driver's connection pools, and what it knows of its servers, over the C library of `include/mdb.h`. What the header asks of a caller is kept by the
//! types: `&mut self` is one call at a time, a slice's pointer is never null, and a driver is closed once.

pub mod srv;
mod values;

pub use values::{
    Action, Awaited, Change, Check, Connection, End, Error, Event, Fact, FactKind, Kind, Next, Reply, Server, ServerKind, Text, Topology, TopologyKind, Use,
    Why,
};

use mdb_sys as c;
use std::ptr::null_mut;

/// One driver. It opens no socket and reads no clock: it is told what happened, step by step. Moments are in milliseconds.
pub struct Driver {
    slot: c::mdb_slot,
    seat: u32,
}

impl std::fmt::Debug for Driver {
    fn fmt(&self, f: &mut std::fmt::Formatter<'_>) -> std::fmt::Result {
        f.debug_struct("Driver").field("seat", &self.seat).finish_non_exhaustive()
    }
}

// SAFETY: what a slot holds may go from thread to thread: the library's `Word` is proved to be `Send`, and `&mut self` is one call at a time.
unsafe impl Send for Driver {}

// The reply of a call that makes a step.
macro_rules! step {
    ($driver:ident, $call:ident, $moment:ident $(, $more:expr)*) => {{
        let at = c::mdb_at { moment: $moment, seat: $driver.seat };
        let mut reply = c::mdb_reply::default();
        // SAFETY: a slot of this driver's, and other parameters of their own, each slice with its length.
        Error::check(unsafe { c::$call(&mut $driver.slot, &at $(, $more)*, &mut reply) })?;
        Reply::of(reply)
    }};
}

impl Driver {
    /// Opens a driver by an `open` line of a script, as `open seeds=a:27017 max=10`.
    ///
    /// # Errors
    ///
    /// `Malformed`, `NoMemory`.
    ///
    /// # Panics
    ///
    /// Where the library that was linked has another interface than this crate.
    pub fn open(line: &str) -> Result<Driver, Error> {
        // SAFETY: it takes nothing.
        assert_eq!(unsafe { c::mdb_abi() }, c::MDB_ABI, "the library has another interface");
        let mut driver = Driver { slot: c::mdb_slot { state: 0, at: null_mut() }, seat: 0 };
        // SAFETY: a slot of zeros, and a slice with its length.
        Error::check(unsafe { c::mdb_open_line(&mut driver.slot, 0, line.as_ptr(), line.len()) })?;
        Ok(driver)
    }

    /// Whoever makes the steps that follow: a number that stands in their entries and changes nothing else. It is 0 at first.
    pub fn set_seat(&mut self, seat: u32) {
        self.seat = seat;
    }

    /// Does the step that a line of a script spells, any but `open`. The entry has the seat, a number that changes nothing.
    ///
    /// # Errors
    ///
    /// `Malformed`, `NoMemory`; nothing was done then, here and below.
    pub fn line(&mut self, seat: u32, line: &str) -> Result<Reply, Error> {
        let mut reply = c::mdb_reply::default();
        // SAFETY: a slot of this driver's, a slice with its length, and a reply of its own.
        Error::check(unsafe { c::mdb_line(&mut self.slot, seat, line.as_ptr(), line.len(), &mut reply) })?;
        Reply::of(reply)
    }

    /// The text of the last entry, with its newline.
    ///
    /// # Errors
    ///
    /// `NoMemory`.
    pub fn entry_text(&mut self) -> Result<String, Error> {
        // SAFETY: a slot of this driver's, a buffer with its length, and a number of its own.
        text(|out, room, needed| unsafe { c::mdb_entry_text(&mut self.slot, out, room, needed) })
    }

    /// A caller asks for a connection to the address (CMAP, "Checking Out a Connection").
    pub fn request(&mut self, moment: u64, party: u32, address: &str) -> Result<Reply, Error> {
        step!(self, mdb_request, moment, party, address.as_ptr(), address.len())
    }

    /// One connection more for the pool of the address, where fewer live than its minimum.
    pub fn warm(&mut self, moment: u64, party: u32, address: &str) -> Result<Reply, Error> {
        step!(self, mdb_warm, moment, party, address.as_ptr(), address.len())
    }

    /// The caller of a request asks how it stands. That it ended is told once.
    pub fn collect(&mut self, moment: u64, party: u32) -> Result<Reply, Error> {
        step!(self, mdb_collect, moment, party)
    }

    /// The caller of a request no longer wants its connection.
    pub fn give_up(&mut self, moment: u64, party: u32) -> Result<Reply, Error> {
        step!(self, mdb_give_up, moment, party)
    }

    /// A party returns its connection (CMAP, "Checking In a Connection").
    pub fn return_connection(&mut self, moment: u64, party: u32, used: Use) -> Result<Reply, Error> {
        step!(self, mdb_return, moment, party, used as u32)
    }

    /// A worker asks for a connection to establish (CMAP, "Establishing a Connection").
    pub fn claim(&mut self, moment: u64) -> Result<Reply, Error> {
        step!(self, mdb_claim, moment)
    }

    /// A pending connection was established. `service` is the service behind a load balancer in 24 hex digits, or empty; `server_id` the server's own number.
    pub fn established(&mut self, moment: u64, connection: Connection, wire: i32, service: &str, server_id: Option<i64>) -> Result<Reply, Error> {
        let made = c::mdb_established_as { pool: connection.pool, id: connection.id, wire, server_id: server_id.unwrap_or(-1) };
        step!(self, mdb_established, moment, &made, service.as_ptr(), service.len())
    }

    /// A party pins its connection, so that it stays with its session when it comes back.
    pub fn pin(&mut self, moment: u64, party: u32) -> Result<Reply, Error> {
        step!(self, mdb_pin, moment, party)
    }

    /// One pin more of a pinned connection.
    pub fn replicate(&mut self, moment: u64, connection: Connection) -> Result<Reply, Error> {
        step!(self, mdb_replicate, moment, &connection.numbers())
    }

    /// A new party takes a pinned connection.
    pub fn take(&mut self, moment: u64, party: u32, connection: Connection) -> Result<Reply, Error> {
        step!(self, mdb_take, moment, party, &connection.numbers())
    }

    /// One pin less of a pinned connection.
    pub fn unpin(&mut self, moment: u64, connection: Connection) -> Result<Reply, Error> {
        step!(self, mdb_unpin, moment, &connection.numbers())
    }

    /// The timer of the pool of the address: stale and idle connections are closed (CMAP, "Background Thread").
    pub fn maintain(&mut self, moment: u64, address: &str) -> Result<Reply, Error> {
        step!(self, mdb_maintain, moment, address.as_ptr(), address.len())
    }

    /// The callers of the pool of the address that waited for too long end.
    pub fn expire(&mut self, moment: u64, address: &str) -> Result<Reply, Error> {
        step!(self, mdb_expire, moment, address.as_ptr(), address.len())
    }

    /// The monitor of the address begins a check, for the pool of this number.
    pub fn beat(&mut self, moment: u64, address: &str, pool: u32) -> Result<Reply, Error> {
        step!(self, mdb_beat, moment, address.as_ptr(), address.len(), pool)
    }

    /// A watcher wants the servers checked at once.
    pub fn want(&mut self, moment: u64, watcher: u32) -> Result<Reply, Error> {
        step!(self, mdb_want, moment, watcher)
    }

    /// A watcher no longer wants it.
    pub fn unwant(&mut self, moment: u64, watcher: u32) -> Result<Reply, Error> {
        step!(self, mdb_unwant, moment, watcher)
    }

    /// An operation of a party met an error on its connection, as `network msg=reset`.
    pub fn error(&mut self, moment: u64, party: u32, error: &str) -> Result<Reply, Error> {
        step!(self, mdb_error, moment, party, error.as_ptr(), error.len())
    }

    /// A pending connection failed: `pre ERROR` before the server's hello, `post ERROR` or `post sid=ID ERROR` after it.
    pub fn failed(&mut self, moment: u64, connection: Connection, outcome: &str) -> Result<Reply, Error> {
        step!(self, mdb_failed, moment, &connection.numbers(), outcome.as_ptr(), outcome.len())
    }

    /// What the hello of a monitor came to: `ok rtt=NANOSECONDS FIELD=VALUE ..` or `err ERROR`. The address has its port.
    pub fn hello(&mut self, moment: u64, address: &str, pool: u32, outcome: &str) -> Result<Reply, Error> {
        let monitor = format!("{address} {pool}");
        step!(self, mdb_hello, moment, monitor.as_ptr(), monitor.len(), outcome.as_ptr(), outcome.len())
    }

    /// The check of a monitor ended: its nanoseconds, and then `ok FIELD=VALUE ..`, `err ERROR` or `cancelled ERROR`.
    pub fn beaten(&mut self, moment: u64, address: &str, pool: u32, outcome: &str) -> Result<Reply, Error> {
        let monitor = format!("{address} {pool}");
        step!(self, mdb_beaten, moment, monitor.as_ptr(), monitor.len(), outcome.as_ptr(), outcome.len())
    }

    /// A round trip was measured beside the checks of a monitor. The address has its port.
    pub fn rtt(&mut self, moment: u64, address: &str, pool: u32, nanos: u64) -> Result<Reply, Error> {
        let monitor = format!("{address} {pool}");
        step!(self, mdb_rtt, moment, monitor.as_ptr(), monitor.len(), nanos)
    }

    /// DNS names these servers now: addresses with their ports, and commas between them.
    pub fn hosts(&mut self, moment: u64, hosts: &str) -> Result<Reply, Error> {
        step!(self, mdb_hosts, moment, hosts.as_ptr(), hosts.len())
    }

    /// A reply told this time of the cluster.
    pub fn cluster_time(&mut self, moment: u64, time: u64) -> Result<Reply, Error> {
        step!(self, mdb_cluster_time, moment, time)
    }

    /// The driver stops: its pools and its monitors are closed.
    pub fn stop(&mut self, moment: u64) -> Result<Reply, Error> {
        step!(self, mdb_stop, moment)
    }

    /// The facts of the last entry, in the order in which they became true.
    pub fn facts(&mut self) -> Result<Vec<Fact>, Error> {
        let mut count = 0;
        // SAFETY: a slot of this driver's, and a number of its own.
        Error::check(unsafe { c::mdb_fact_count(&mut self.slot, &mut count) })?;
        (0..count).map(|index| self.fact(index)).collect()
    }

    fn fact(&mut self, index: usize) -> Result<Fact, Error> {
        let mut numbers = c::mdb_fact::default();
        // SAFETY: a slot of this driver's, and numbers of their own.
        Error::check(unsafe { c::mdb_fact_at(&mut self.slot, index, &mut numbers) })?;
        // SAFETY: as in `entry_text`.
        let text = text(|out, room, needed| unsafe { c::mdb_fact_text(&mut self.slot, index, out, room, needed) })?;
        // SAFETY: as in `entry_text`.
        let address = some_text(|out, room, needed| unsafe { c::mdb_fact_address(&mut self.slot, index, out, room, needed) })?;
        let mut fact = Fact::of(numbers, text, address)?;
        if fact.tells_types() {
            let mut types = c::mdb_types::default();
            // SAFETY: a slot of this driver's, and numbers of their own.
            Error::check(unsafe { c::mdb_fact_types(&mut self.slot, index, &mut types) })?;
            fact.change = Some(Change::of(fact.event, types)?);
        }
        Ok(fact)
    }

    /// The address to which a pending connection goes, if it is pending.
    pub fn job_address(&mut self, connection: Connection) -> Result<Option<String>, Error> {
        // SAFETY: as in `entry_text`.
        some_text(|out, room, needed| unsafe { c::mdb_job_address(&mut self.slot, connection.pool, connection.id, out, room, needed) })
    }

    /// What is known of the topology.
    pub fn topology(&mut self) -> Result<Topology, Error> {
        let mut told = c::mdb_topology::default();
        // SAFETY: a slot of this driver's, and numbers of their own.
        Error::check(unsafe { c::mdb_topology_get(&mut self.slot, &mut told) })?;
        Topology::of(told)
    }

    /// A text of the topology, `SetName`, `ElectionId` or `Error`, if there is one.
    pub fn topology_text(&mut self, which: Text) -> Result<Option<String>, Error> {
        // SAFETY: as in `entry_text`.
        some_text(|out, room, needed| unsafe { c::mdb_topology_text(&mut self.slot, which as u32, out, room, needed) })
    }

    /// What is known of the server at the place, in the order of the servers' addresses, if there is one.
    pub fn server(&mut self, place: usize) -> Result<Option<Server>, Error> {
        let mut told = c::mdb_server::default();
        // SAFETY: a slot of this driver's, and numbers of their own.
        match Error::check(unsafe { c::mdb_server_get(&mut self.slot, place, &mut told) }) {
            Ok(()) => Server::of(told).map(Some),
            Err(Error::NoEntry) => Ok(None),
            Err(error) => Err(error),
        }
    }

    /// The place of the server with the address, if there is one.
    pub fn server_at(&mut self, address: &str) -> Result<Option<usize>, Error> {
        let mut place = 0;
        // SAFETY: a slot of this driver's, a slice with its length, and a number of its own.
        match Error::check(unsafe { c::mdb_server_at(&mut self.slot, address.as_ptr(), address.len(), &mut place) }) {
            Ok(()) => Ok(Some(place)),
            Err(Error::NoEntry) => Ok(None),
            Err(error) => Err(error),
        }
    }

    /// A text of the server at the place, if there is one.
    pub fn server_text(&mut self, place: usize, which: Text) -> Result<Option<String>, Error> {
        // SAFETY: as in `entry_text`.
        some_text(|out, room, needed| unsafe { c::mdb_server_text(&mut self.slot, place, which as u32, out, room, needed) })
    }

    /// What the check of the server does that begins now, asked before `beat`, if a pool is open there.
    pub fn next_check(&mut self, address: &str) -> Result<Option<Check>, Error> {
        let mut told = c::mdb_check::default();
        // SAFETY: a slot of this driver's, a slice with its length, and numbers of their own.
        match Error::check(unsafe { c::mdb_check_get(&mut self.slot, address.as_ptr(), address.len(), &mut told) }) {
            Ok(()) => Check::of(told).map(Some),
            Err(Error::NoEntry) => Ok(None),
            Err(error) => Err(error),
        }
    }

    /// What follows a check that ends so, asked before `beaten`, with the same words, if a pool is open there.
    pub fn next_after(&mut self, address: &str, pool: u32, outcome: &str) -> Result<Option<Next>, Error> {
        let monitor = format!("{address} {pool}");
        let mut next = 0;
        // SAFETY: a slot of this driver's, slices with their lengths, and a number of its own.
        match Error::check(unsafe { c::mdb_check_next(&mut self.slot, monitor.as_ptr(), monitor.len(), outcome.as_ptr(), outcome.len(), &mut next) }) {
            Ok(()) => Next::of(next).map(Some),
            Err(Error::NoEntry) => Ok(None),
            Err(error) => Err(error),
        }
    }

    /// The moment of the last step that was accepted.
    pub fn last_moment(&mut self) -> Result<u64, Error> {
        let mut moment = 0;
        // SAFETY: a slot of this driver's, and a number of its own.
        Error::check(unsafe { c::mdb_last_moment(&mut self.slot, &mut moment) })?;
        Ok(moment)
    }

    /// How often an accepted step told of the topology, its opening included.
    pub fn published(&mut self) -> Result<u64, Error> {
        let mut count = 0;
        // SAFETY: a slot of this driver's, and a number of its own.
        Error::check(unsafe { c::mdb_published(&mut self.slot, &mut count) })?;
        Ok(count)
    }

    /// The number of the pool that is open at the address, if there is one.
    pub fn open_pool(&mut self, address: &str) -> Result<Option<u32>, Error> {
        let mut pool = 0;
        // SAFETY: a slot of this driver's, a slice with its length, and a number of its own.
        match Error::check(unsafe { c::mdb_open_pool(&mut self.slot, address.as_ptr(), address.len(), &mut pool) }) {
            Ok(()) => Ok(Some(pool)),
            Err(Error::NoEntry) => Ok(None),
            Err(error) => Err(error),
        }
    }
}

impl Drop for Driver {
    fn drop(&mut self) {
        // SAFETY: a slot of this driver's.
        unsafe { c::mdb_close(&mut self.slot) }
    }
}

// A text that the call writes, if there is one.
fn some_text(call: impl FnMut(*mut u8, usize, *mut usize) -> u32) -> Result<Option<String>, Error> {
    match text(call) {
        Ok(text) => Ok(Some(text)),
        Err(Error::NoEntry) => Ok(None),
        Err(error) => Err(error),
    }
}

// A text that the call writes, with a larger buffer where it does not fit.
fn text(mut call: impl FnMut(*mut u8, usize, *mut usize) -> u32) -> Result<String, Error> {
    let mut out = vec![0; 1024];
    let mut needed = 0;
    loop {
        match Error::check(call(out.as_mut_ptr(), out.len(), &mut needed)) {
            Ok(()) => {
                out.truncate(needed);
                return String::from_utf8(out).map_err(|_| Error::Unknown(u32::MAX));
            }
            Err(Error::NoRoom) => out.resize(needed, 0),
            Err(error) => return Err(error),
        }
    }
}
