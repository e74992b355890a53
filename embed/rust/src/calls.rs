//! The calls of `polydb.h`.

use crate::{Fault, Handle, JournalInfo, Told};

#[link(name = "polydb", kind = "static")]
extern "C" {
    pub fn polydb_version() -> u32;
    pub fn polydb_status_text(status: u32, out: *mut u8, room: usize, written: *mut usize) -> u32;
    pub fn polydb_world_open(world: *mut Handle, catalog: *const u8, length: usize) -> u32;
    pub fn polydb_world_step(world: *mut Handle, line: *const u8, length: usize) -> u32;
    pub fn polydb_world_take(
        world: *mut Handle,
        out: *mut u8,
        room: usize,
        written: *mut usize,
    ) -> u32;
    pub fn polydb_world_close(world: *mut Handle);
    pub fn polydb_site_open_at(
        site: *mut Handle,
        config: *const u8,
        config_length: usize,
        me: u8,
        journal: *const u8,
        journal_length: usize,
        fault: *mut Fault,
    ) -> u32;
    pub fn polydb_config_grows(
        before: *const u8,
        before_length: usize,
        later: *const u8,
        later_length: usize,
    ) -> u32;
    pub fn polydb_site_submit_tagged(
        site: *mut Handle,
        program: *const u8,
        length: usize,
        query: bool,
        tag: u64,
        fault: *mut Fault,
    ) -> u32;
    pub fn polydb_site_receive(site: *mut Handle, message: *const u8, length: usize) -> u32;
    pub fn polydb_site_tick(site: *mut Handle) -> u32;
    pub fn polydb_site_take_journal(
        site: *mut Handle,
        out: *mut u8,
        room: usize,
        written: *mut usize,
        place: *mut u64,
    ) -> u32;
    pub fn polydb_site_journal_synced(site: *mut Handle, place: u64, written: usize) -> u32;
    pub fn polydb_site_take_tagged(
        site: *mut Handle,
        out: *mut u8,
        room: usize,
        written: *mut usize,
        to: *mut u64,
        tag: *mut u64,
    ) -> u32;
    pub fn polydb_site_read(
        site: *mut Handle,
        name: *const u8,
        length: usize,
        out: *mut u8,
        room: usize,
        written: *mut usize,
    ) -> u32;
    pub fn polydb_site_outcome(
        site: *mut Handle,
        coordinator: u8,
        epoch: u32,
        number: u32,
        outcome: *mut u32,
    ) -> u32;
    pub fn polydb_site_info(site: *mut Handle, info: *mut Told) -> u32;
    pub fn polydb_site_item(
        site: *mut Handle,
        number: u64,
        out: *mut u8,
        room: usize,
        written: *mut usize,
        at: *mut u64,
    ) -> u32;
    pub fn polydb_site_close(site: *mut Handle);
    pub fn polydb_outbox_open(
        outbox: *mut Handle,
        journal: *const u8,
        journal_length: usize,
        fault: *mut Fault,
    ) -> u32;
    pub fn polydb_outbox_hold(
        outbox: *mut Handle,
        output: u32,
        cases: *const u8,
        length: usize,
    ) -> u32;
    pub fn polydb_outbox_learn(
        outbox: *mut Handle,
        coordinator: u8,
        epoch: u32,
        number: u32,
        commits: bool,
        outcome: *mut u32,
    ) -> u32;
    pub fn polydb_outbox_release(outbox: *mut Handle) -> u32;
    pub fn polydb_outbox_take(outbox: *mut Handle, output: *mut u32) -> u32;
    pub fn polydb_outbox_take_journal(
        outbox: *mut Handle,
        out: *mut u8,
        room: usize,
        written: *mut usize,
        place: *mut u64,
    ) -> u32;
    pub fn polydb_outbox_journal_synced(outbox: *mut Handle, place: u64, written: usize) -> u32;
    pub fn polydb_outbox_info(outbox: *mut Handle, info: *mut JournalInfo) -> u32;
    pub fn polydb_outbox_close(outbox: *mut Handle);
    pub fn polydb_run(
        input: *const u8,
        length: usize,
        out: *mut u8,
        room: usize,
        written: *mut usize,
    ) -> u32;
}
