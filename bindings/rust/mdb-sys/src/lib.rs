//! The C library of `include/mdb.h`, as it is: that header says what each call answers and what its caller owes.
#![no_std]
#![allow(non_camel_case_types)]

use core::ffi::c_void;

pub const MDB_ABI: u32 = 4;

pub const MDB_OK: u32 = 0;
pub const MDB_NO_MEMORY: u32 = 1;
pub const MDB_MALFORMED: u32 = 2;
pub const MDB_NO_ROOM: u32 = 3;
pub const MDB_CLOSED: u32 = 4;
pub const MDB_OPENED: u32 = 5;
pub const MDB_NO_ENTRY: u32 = 6;
pub const MDB_BAD_RECORDS: u32 = 7;

#[repr(C)]
pub struct mdb_slot {
    pub state: u64,
    pub at: *mut c_void,
}

#[repr(C)]
#[derive(Clone, Copy, Debug, Default, PartialEq, Eq)]
pub struct mdb_reply {
    pub kind: u32,
    pub pool: u32,
    pub id: u32,
    pub why: u32,
    pub number: u64,
}

#[repr(C)]
#[derive(Clone, Copy, Debug, Default, PartialEq, Eq)]
pub struct mdb_fact {
    pub kind: u32,
    pub event: u32,
    pub pool: u32,
    pub id: u32,
    pub party: u32,
    pub why: u32,
    pub number: u64,
    pub service: [u8; 12],
    pub has_service: u32,
    pub has_pool: u32,
}

#[repr(C)]
#[derive(Clone, Copy, Debug, Default, PartialEq, Eq)]
pub struct mdb_at {
    pub moment: u64,
    pub seat: u32,
}

#[repr(C)]
#[derive(Clone, Copy, Debug, Default, PartialEq, Eq)]
pub struct mdb_connection {
    pub pool: u32,
    pub id: u32,
}

#[repr(C)]
#[derive(Clone, Copy, Debug, Default, PartialEq, Eq)]
pub struct mdb_established_as {
    pub pool: u32,
    pub id: u32,
    pub wire: i32,
    pub server_id: i64,
}

#[repr(C)]
#[derive(Clone, Copy, Debug, Default, PartialEq, Eq)]
pub struct mdb_types {
    pub before: u32,
    pub after: u32,
}

#[repr(C)]
#[derive(Clone, Copy, Debug, Default, PartialEq, Eq)]
pub struct mdb_topology {
    pub servers: u64,
    pub cluster_time: u64,
    pub session_minutes: u64,
    pub kind: u32,
    pub max_set_version: i32,
    pub has_max_set_version: u32,
    pub has_cluster_time: u32,
    pub has_session_minutes: u32,
    pub compatible: u32,
    pub polled: u32,
}

#[repr(C)]
#[derive(Clone, Copy, Debug, Default, PartialEq, Eq)]
pub struct mdb_server {
    pub round_trip: u64,
    pub updated: i64,
    pub kind: u32,
    pub min_wire: i32,
    pub max_wire: i32,
    pub set_version: i32,
    pub has_round_trip: u32,
    pub has_updated: u32,
    pub has_set_version: u32,
    pub has_error: u32,
}

#[repr(C)]
#[derive(Clone, Copy, Debug, Default, PartialEq, Eq)]
pub struct mdb_check {
    pub timeout: u64,
    pub most: u64,
    pub counter: i64,
    pub process: [u8; 12],
    pub action: u32,
    pub connection: u32,
    pub awaits: u32,
    pub legacy: u32,
    pub asks: u32,
}

#[repr(C)]
#[derive(Clone, Copy, Debug, Default, PartialEq, Eq)]
pub struct mdb_driver_pool {
    pub generation: u64,
    pub available: u64,
    pub state: u32,
    pub has_job: u32,
}

extern "C" {
    pub fn mdb_abi() -> u32;
    pub fn mdb_close(slot: *mut mdb_slot);

    pub fn mdb_open_line(slot: *mut mdb_slot, seat: u32, line: *const u8, line_len: usize) -> u32;
    pub fn mdb_line(slot: *mut mdb_slot, seat: u32, line: *const u8, line_len: usize, reply: *mut mdb_reply) -> u32;
    pub fn mdb_entry_text(slot: *mut mdb_slot, out: *mut u8, out_len: usize, needed: *mut usize) -> u32;

    pub fn mdb_request(slot: *mut mdb_slot, at: *const mdb_at, party: u32, address: *const u8, address_len: usize, reply: *mut mdb_reply) -> u32;
    pub fn mdb_warm(slot: *mut mdb_slot, at: *const mdb_at, party: u32, address: *const u8, address_len: usize, reply: *mut mdb_reply) -> u32;
    pub fn mdb_collect(slot: *mut mdb_slot, at: *const mdb_at, party: u32, reply: *mut mdb_reply) -> u32;
    pub fn mdb_give_up(slot: *mut mdb_slot, at: *const mdb_at, party: u32, reply: *mut mdb_reply) -> u32;
    pub fn mdb_return(slot: *mut mdb_slot, at: *const mdb_at, party: u32, used: u32, reply: *mut mdb_reply) -> u32;
    pub fn mdb_claim(slot: *mut mdb_slot, at: *const mdb_at, reply: *mut mdb_reply) -> u32;
    pub fn mdb_established(
        slot: *mut mdb_slot,
        at: *const mdb_at,
        made: *const mdb_established_as,
        service: *const u8,
        service_len: usize,
        reply: *mut mdb_reply,
    ) -> u32;
    pub fn mdb_job_address(slot: *mut mdb_slot, pool: u32, id: u32, out: *mut u8, out_len: usize, needed: *mut usize) -> u32;
    pub fn mdb_pin(slot: *mut mdb_slot, at: *const mdb_at, party: u32, reply: *mut mdb_reply) -> u32;
    pub fn mdb_replicate(slot: *mut mdb_slot, at: *const mdb_at, connection: *const mdb_connection, reply: *mut mdb_reply) -> u32;
    pub fn mdb_take(slot: *mut mdb_slot, at: *const mdb_at, party: u32, connection: *const mdb_connection, reply: *mut mdb_reply) -> u32;
    pub fn mdb_unpin(slot: *mut mdb_slot, at: *const mdb_at, connection: *const mdb_connection, reply: *mut mdb_reply) -> u32;
    pub fn mdb_maintain(slot: *mut mdb_slot, at: *const mdb_at, address: *const u8, address_len: usize, reply: *mut mdb_reply) -> u32;
    pub fn mdb_expire(slot: *mut mdb_slot, at: *const mdb_at, address: *const u8, address_len: usize, reply: *mut mdb_reply) -> u32;
    pub fn mdb_beat(slot: *mut mdb_slot, at: *const mdb_at, address: *const u8, address_len: usize, pool: u32, reply: *mut mdb_reply) -> u32;
    pub fn mdb_want(slot: *mut mdb_slot, at: *const mdb_at, watcher: u32, reply: *mut mdb_reply) -> u32;
    pub fn mdb_unwant(slot: *mut mdb_slot, at: *const mdb_at, watcher: u32, reply: *mut mdb_reply) -> u32;
    pub fn mdb_error(slot: *mut mdb_slot, at: *const mdb_at, party: u32, error: *const u8, error_len: usize, reply: *mut mdb_reply) -> u32;
    pub fn mdb_failed(
        slot: *mut mdb_slot,
        at: *const mdb_at,
        connection: *const mdb_connection,
        outcome: *const u8,
        outcome_len: usize,
        reply: *mut mdb_reply,
    ) -> u32;
    pub fn mdb_hello(
        slot: *mut mdb_slot,
        at: *const mdb_at,
        monitor: *const u8,
        monitor_len: usize,
        outcome: *const u8,
        outcome_len: usize,
        reply: *mut mdb_reply,
    ) -> u32;
    pub fn mdb_beaten(
        slot: *mut mdb_slot,
        at: *const mdb_at,
        monitor: *const u8,
        monitor_len: usize,
        outcome: *const u8,
        outcome_len: usize,
        reply: *mut mdb_reply,
    ) -> u32;
    pub fn mdb_rtt(slot: *mut mdb_slot, at: *const mdb_at, monitor: *const u8, monitor_len: usize, nanos: u64, reply: *mut mdb_reply) -> u32;
    pub fn mdb_hosts(slot: *mut mdb_slot, at: *const mdb_at, hosts: *const u8, hosts_len: usize, reply: *mut mdb_reply) -> u32;
    pub fn mdb_cluster_time(slot: *mut mdb_slot, at: *const mdb_at, time: u64, reply: *mut mdb_reply) -> u32;
    pub fn mdb_stop(slot: *mut mdb_slot, at: *const mdb_at, reply: *mut mdb_reply) -> u32;

    pub fn mdb_fact_count(slot: *mut mdb_slot, count: *mut usize) -> u32;
    pub fn mdb_fact_at(slot: *mut mdb_slot, index: usize, fact: *mut mdb_fact) -> u32;
    pub fn mdb_fact_text(slot: *mut mdb_slot, index: usize, out: *mut u8, out_len: usize, needed: *mut usize) -> u32;
    pub fn mdb_fact_address(slot: *mut mdb_slot, index: usize, out: *mut u8, out_len: usize, needed: *mut usize) -> u32;
    pub fn mdb_fact_types(slot: *mut mdb_slot, index: usize, types: *mut mdb_types) -> u32;
    pub fn mdb_topology_get(slot: *mut mdb_slot, topology: *mut mdb_topology) -> u32;
    pub fn mdb_topology_text(slot: *mut mdb_slot, which: u32, out: *mut u8, out_len: usize, needed: *mut usize) -> u32;
    pub fn mdb_server_get(slot: *mut mdb_slot, index: usize, server: *mut mdb_server) -> u32;
    pub fn mdb_server_at(slot: *mut mdb_slot, address: *const u8, address_len: usize, index: *mut usize) -> u32;
    pub fn mdb_server_text(slot: *mut mdb_slot, index: usize, which: u32, out: *mut u8, out_len: usize, needed: *mut usize) -> u32;
    pub fn mdb_check_get(slot: *mut mdb_slot, address: *const u8, address_len: usize, check: *mut mdb_check) -> u32;
    pub fn mdb_check_next(slot: *mut mdb_slot, monitor: *const u8, monitor_len: usize, outcome: *const u8, outcome_len: usize, next: *mut u32) -> u32;
    pub fn mdb_srv_hosts(
        name: *const u8,
        name_len: usize,
        found: *const u8,
        found_len: usize,
        strangers: u32,
        out: *mut u8,
        out_len: usize,
        needed: *mut usize,
    ) -> u32;
    pub fn mdb_srv_txt(name: *const u8, name_len: usize, count: u32, text: *const u8, text_len: usize, out: *mut u8, out_len: usize, needed: *mut usize)
        -> u32;
    pub fn mdb_srv_rescan(accepted: u32, ttl: u32, heartbeat: u64) -> u64;
    pub fn mdb_last_moment(slot: *mut mdb_slot, moment: *mut u64) -> u32;
    pub fn mdb_published(slot: *mut mdb_slot, count: *mut u64) -> u32;
    pub fn mdb_open_pool(slot: *mut mdb_slot, address: *const u8, address_len: usize, pool: *mut u32) -> u32;
    pub fn mdb_driver_pool_get(slot: *mut mdb_slot, pool: u32, told: *mut mdb_driver_pool) -> u32;
    pub fn mdb_watchers(slot: *mut mdb_slot, count: *mut u64) -> u32;
}
