//! The functions and structs of `sgt.h` and `sgt_shared.h`. The headers say what each does and what its caller must ensure. Programs
//! use the crate `sgt`.
#![allow(clippy::missing_safety_doc)] // the headers say it

use std::os::raw::{c_char, c_void};

/// `SGT_VERSION`: the version of the headers.
pub const VERSION: &str = "0.4.0";

pub const OK: u32 = 0;
pub const NO_MEMORY: u32 = 1;
pub const CLOSED: u32 = 2;
pub const OPEN: u32 = 3;
pub const NONE: u32 = 4;
pub const BAD_CALL: u32 = 5;
pub const STILL_LIVE: u32 = 6;
pub const BEGUN: u32 = 7;
pub const TAKEN: u32 = 8;
pub const TOO_MANY: u32 = 9;
pub const BUSY: u32 = 10;
pub const SELF_WAIT: u32 = 11;
pub const TIMED_OUT: u32 = 12;
pub const STALE: u32 = 13;
pub const MISUSE: u32 = 14;
pub const UNDONE: u32 = 15;
pub const NOT_JSON: u32 = 16;
pub const BAD_LINE: u32 = 17;
pub const BAD_LIMITS: u32 = 18;
pub const BAD_OPENING: u32 = 19;
pub const PROC_SHAPE: u32 = 20;
pub const PROC_FLAW: u32 = 21;

/// `SGT_FOREVER`: a deadline that never comes.
pub const FOREVER: i64 = i64::MAX;

/// `sgt_engine`: an engine, or none where all bytes are zero.
#[repr(C)]
#[derive(Debug)]
pub struct Engine {
    pub is_open: u8,
    pub at: *mut u8,
}

/// `sgt_fault`: why an opening or a procedure was refused.
#[repr(C)]
#[derive(Clone, Copy, Debug, PartialEq, Eq)]
pub struct Fault {
    pub kind: u32,
    pub number: u32,
    pub procedure: u64,
    pub depth: u32,
    pub spare: u32,
    pub place: [u64; 128],
}

/// `sgt_reply`: the reply to an event.
#[repr(C)]
#[derive(Clone, Copy, Debug, Default, PartialEq, Eq)]
pub struct Reply {
    pub kind: u32,
    pub cause: u32,
    pub tid: u32,
    pub code: u32,
    pub table: u32,
    pub found: u32,
    pub number: i64,
    pub value: i64,
    pub answers: u32,
    pub walked: u32,
    pub fallen: u32,
    pub spare: u32,
    pub answer: [i64; 8],
    pub walk: [u32; 32],
    pub fell: [u32; 32],
}

/// `sgt_event`: an event.
#[repr(C)]
#[derive(Clone, Copy, Debug, Default, PartialEq, Eq)]
pub struct Event {
    pub kind: u32,
    pub tid: u32,
    pub procedure: u32,
    pub args: u32,
    pub arg: [i64; 4],
    pub table: u32,
    pub spare: u32,
    pub number: i64,
    pub value: i64,
}

/// `sgt_row`: a record and its value.
#[repr(C)]
#[derive(Clone, Copy, Debug, Default, PartialEq, Eq)]
pub struct Row {
    pub table: u32,
    pub spare: u32,
    pub number: i64,
    pub value: i64,
}

/// `sgt_shared`: an engine that threads share.
#[repr(C)]
pub struct Shared {
    _opaque: [u8; 0],
}

/// `sgt_ticket`: identifies a transaction.
#[repr(C)]
#[derive(Clone, Copy, Debug, Default, PartialEq, Eq, Hash)]
pub struct Ticket {
    pub engine: u64,
    pub part: u64,
    pub tid: u32,
    pub spare: u32,
}

/// `sgt_call`: a call of a committed or refused transaction, with its answers or its code.
#[repr(C)]
#[derive(Clone, Copy, Debug, Default, PartialEq, Eq)]
pub struct Call {
    pub kind: u32,
    pub tid: u32,
    pub procedure: u32,
    pub code: u32,
    pub args: u32,
    pub answers: u32,
    pub arg: [i64; 4],
    pub answer: [i64; 8],
    pub accesses: u64,
}

/// `sgt_access`: an access that a transaction's caller decided.
#[repr(C)]
#[derive(Clone, Copy, Debug, Default, PartialEq, Eq)]
pub struct Access {
    pub kind: u32,
    pub table: u32,
    pub number: i64,
    pub value: i64,
    pub found: u32,
    pub spare: u32,
}

/// `sgt_outcome`: the outcome of a call of `sgt_run_many`.
#[repr(C)]
#[derive(Clone, Copy, Debug, Default, PartialEq, Eq)]
pub struct Outcome {
    pub tid: u32,
    pub wrote: u32,
    pub reply: Reply,
}

/// `sgt_ended`: such a call of a shared engine.
#[repr(C)]
#[derive(Clone, Copy, Debug, Default, PartialEq, Eq)]
pub struct Ended {
    pub sequence: u64,
    pub ticket: Ticket,
    pub call: Call,
    pub wrote: u32,
    pub spare: u32,
}

/// `sgt_live`: a live transaction.
#[repr(C)]
#[derive(Clone, Copy, Debug, Default, PartialEq, Eq)]
pub struct Live {
    pub ticket: Ticket,
    pub for_ns: i64,
    pub procedure: u32,
    pub waits: u32,
}

pub type EndedHook = unsafe extern "C-unwind" fn(context: *mut c_void, call: *const Ended);
pub type InterruptedHook = unsafe extern "C" fn(context: *mut c_void) -> u32;
pub type CuttingHook = unsafe extern "C-unwind" fn(context: *mut c_void, engine: *mut Engine, part: u64);

/// `sgt_shared_config`: the configuration of a shared engine.
#[repr(C)]
#[derive(Clone, Copy, Debug)]
pub struct SharedConfig {
    pub size: usize,
    pub ended: Option<EndedHook>,
    pub cutting: Option<CuttingHook>,
    pub context: *mut c_void,
    pub keeps_ended: u32,
    pub asks_to_cut: u32,
    pub cut_after: u64,
    pub cut_wait_ns: i64,
}

/// `sgt_run_options`: how a call is run.
#[repr(C)]
#[derive(Clone, Copy, Debug)]
pub struct RunOptions {
    pub size: usize,
    pub wait_ns: i64,
    pub tries: u32,
    pub spare: u32,
}

/// `sgt_shared_outcome`: the outcome of a run of a shared engine.
#[repr(C)]
#[derive(Clone, Copy, Debug, Default)]
pub struct SharedOutcome {
    pub size: usize,
    pub tries: u32,
    pub waits: u32,
    pub ticket: Ticket,
    pub sequence: u64,
    pub reply: Reply,
}

/// `sgt_transact_options`: how a transaction function is run.
#[repr(C)]
#[derive(Clone, Copy, Debug)]
pub struct TransactOptions {
    pub size: usize,
    pub wait_ns: i64,
    pub tries: u32,
    pub spare: u32,
}

/// `sgt_transaction`: a transaction whose accesses its caller decides, with its tries.
#[repr(C)]
#[derive(Clone, Copy, Debug)]
pub struct Transaction {
    pub size: usize,
    pub shared: *mut Shared,
    pub ticket: Ticket,
    pub sequence: u64,
    pub ends: u64,
    pub tries: u32,
    pub waits: u32,
    pub status: u32,
    pub is_live: u32,
    pub reply: Reply,
}

pub type Ask = unsafe extern "C" fn(*mut Engine, u32, *mut Reply) -> u32;

extern "C" {
    pub fn sgt_open(engine: *mut Engine, opening: *const u8, length: usize, fault: *mut Fault) -> u32;
    pub fn sgt_open_with(
        engine: *mut Engine,
        opening: *const u8,
        length: usize,
        rows: *const Row,
        count: usize,
        fault: *mut Fault,
    ) -> u32;
    pub fn sgt_open_bare(engine: *mut Engine, live: u64, begins: u64, asks: u64) -> u32;
    pub fn sgt_put(engine: *mut Engine, rows: *const Row, count: usize, at: *mut u64) -> u32;
    pub fn sgt_procedure(
        engine: *mut Engine,
        text: *const u8,
        length: usize,
        number: *mut u16,
        fault: *mut Fault,
    ) -> u32;
    pub fn sgt_procedure_text(engine: *const Engine, number: u64, text: *mut u8, capacity: usize, length: *mut u64) -> u32;
    pub fn sgt_close(engine: *mut Engine);
    pub fn sgt_start(engine: *mut Engine, procedure: u64, args: *const i64, count: usize, reply: *mut Reply) -> u32;
    pub fn sgt_run(
        engine: *mut Engine,
        procedure: u64,
        args: *const i64,
        count: usize,
        tid: *mut u32,
        reply: *mut Reply,
    ) -> u32;
    pub fn sgt_run_many(
        engine: *mut Engine,
        calls: *const Call,
        count: usize,
        outcomes: *mut Outcome,
        capacity: usize,
        done: *mut u64,
    ) -> u32;
    pub fn sgt_step(engine: *mut Engine, tid: u32, reply: *mut Reply) -> u32;
    pub fn sgt_commit(engine: *mut Engine, tid: u32, reply: *mut Reply) -> u32;
    pub fn sgt_quit(engine: *mut Engine, tid: u32, reply: *mut Reply) -> u32;
    pub fn sgt_begin(engine: *mut Engine, reply: *mut Reply) -> u32;
    pub fn sgt_read(engine: *mut Engine, tid: u32, table: u64, number: i64, reply: *mut Reply) -> u32;
    pub fn sgt_write(engine: *mut Engine, tid: u32, table: u64, number: i64, value: i64, reply: *mut Reply) -> u32;
    pub fn sgt_remove(engine: *mut Engine, tid: u32, table: u64, number: i64, reply: *mut Reply) -> u32;
    pub fn sgt_accesses(engine: *const Engine, tid: u32, accesses: *mut Access, capacity: usize, count: *mut u64) -> u32;
    pub fn sgt_get(engine: *const Engine, table: u64, number: i64, value: *mut i64) -> u32;
    pub fn sgt_rows(engine: *const Engine, table: u64, number: i64, rows: *mut Row, capacity: usize, count: *mut u64) -> u32;
    pub fn sgt_records(engine: *const Engine, count: *mut u64) -> u32;
    pub fn sgt_live_tids(engine: *const Engine, tids: *mut u32, count: *mut u64) -> u32;
    pub fn sgt_limits(engine: *const Engine, limits: *mut u64) -> u32;
    pub fn sgt_wrote(engine: *const Engine, tid: u32, wrote: *mut u32) -> u32;
    pub fn sgt_entries(engine: *const Engine, count: *mut u64) -> u32;
    pub fn sgt_entry(engine: *const Engine, place: u64, event: *mut Event, reply: *mut Reply) -> u32;
    pub fn sgt_calls(
        engine: *const Engine,
        from: u64,
        calls: *mut Call,
        capacity: usize,
        count: *mut u64,
        next: *mut u64,
    ) -> u32;
    pub fn sgt_reserve(engine: *mut Engine, entries: u64) -> u32;
    pub fn sgt_cut(engine: *mut Engine, live: *mut u64) -> u32;
    pub fn sgt_part(engine: *const Engine, part: *mut u64) -> u32;
    pub fn sgt_reply_text(reply: *const Reply, text: *mut u8, capacity: usize, length: *mut u64) -> u32;
    pub fn sgt_fault_text(fault: *const Fault, text: *mut u8, capacity: usize, length: *mut u64) -> u32;
    pub fn sgt_explain_opening(opening: *const u8, length: usize, text: *mut u8, capacity: usize, written: *mut u64) -> u32;
    pub fn sgt_explain_procedure(
        number: u64,
        procedure: *const u8,
        length: usize,
        text: *mut u8,
        capacity: usize,
        written: *mut u64,
    ) -> u32;
    pub fn sgt_version() -> *const c_char;
    pub fn sgt_status_text(status: u32) -> *const c_char;
}

// A hook that panics unwinds through these calls.
extern "C-unwind" {
    pub fn sgt_shared_open(
        shared: *mut *mut Shared,
        opening: *const u8,
        length: usize,
        rows: *const Row,
        count: usize,
        config: *const SharedConfig,
        fault: *mut Fault,
    ) -> u32;
    pub fn sgt_shared_take(shared: *mut *mut Shared, engine: *mut Engine, config: *const SharedConfig) -> u32;
    pub fn sgt_shared_close(shared: *mut *mut Shared) -> u32;
    pub fn sgt_shared_run(
        shared: *mut Shared,
        procedure: u64,
        args: *const i64,
        count: usize,
        options: *const RunOptions,
        outcome: *mut SharedOutcome,
    ) -> u32;
    pub fn sgt_shared_start(
        shared: *mut Shared,
        procedure: u64,
        args: *const i64,
        count: usize,
        wait_ns: i64,
        ticket: *mut Ticket,
        reply: *mut Reply,
    ) -> u32;
    pub fn sgt_shared_step(shared: *mut Shared, ticket: *const Ticket, reply: *mut Reply) -> u32;
    pub fn sgt_shared_quit(shared: *mut Shared, ticket: *const Ticket, reply: *mut Reply) -> u32;
    pub fn sgt_shared_abandon(shared: *mut Shared, ticket: *const Ticket) -> u32;
    pub fn sgt_shared_commit(shared: *mut Shared, ticket: *const Ticket, wait_ns: i64, reply: *mut Reply) -> u32;
    pub fn sgt_shared_accesses(
        shared: *mut Shared,
        ticket: *const Ticket,
        accesses: *mut Access,
        capacity: usize,
        count: *mut u64,
    ) -> u32;
    pub fn sgt_shared_try(shared: *mut Shared, transaction: *mut Transaction, options: *const TransactOptions) -> u32;
    pub fn sgt_transaction_read(transaction: *mut Transaction, table: u64, number: i64, value: *mut i64) -> u32;
    pub fn sgt_transaction_write(transaction: *mut Transaction, table: u64, number: i64, value: i64) -> u32;
    pub fn sgt_transaction_remove(transaction: *mut Transaction, table: u64, number: i64) -> u32;
    pub fn sgt_transaction_commit(transaction: *mut Transaction, wait_ns: i64) -> u32;
    pub fn sgt_transaction_quit(transaction: *mut Transaction) -> u32;
    pub fn sgt_shared_live(shared: *mut Shared, rows: *mut Live, capacity: usize, count: *mut u64) -> u32;
    pub fn sgt_shared_cut(shared: *mut Shared, wait_ns: i64) -> u32;
    pub fn sgt_shared_get(shared: *mut Shared, table: u64, number: i64, value: *mut i64) -> u32;
    pub fn sgt_shared_rows(
        shared: *mut Shared,
        table: u64,
        number: i64,
        rows: *mut Row,
        capacity: usize,
        count: *mut u64,
    ) -> u32;
    pub fn sgt_shared_limits(shared: *mut Shared, limits: *mut u64) -> u32;
    pub fn sgt_shared_entries(shared: *mut Shared, count: *mut u64, part: *mut u64) -> u32;
    pub fn sgt_shared_drain(
        shared: *mut Shared,
        wait_ns: i64,
        calls: *mut Ended,
        capacity: usize,
        count: *mut u64,
    ) -> u32;
    pub fn sgt_shared_watch(interrupted: Option<InterruptedHook>, context: *mut c_void);
}
