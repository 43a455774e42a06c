//! sgt for Rust: an in-memory transaction engine that schedules by serialization graph testing. The engine is proved. This crate
//! calls its library for C; `sgt.h` says what each call does.
//!
//! ```no_run
//! let bank = sgt::SharedEngine::open(r#"{"limits":[8,100],"accounts":[[1,101,500,1000]],"procedures":[]}"#)?;
//! let outcome = bank.run(1, &[1, 100])?; // SmallBank's deposit, from any thread
//! assert_eq!(outcome.reply, sgt::Reply::Committed(vec![1100]));
//! let before = bank.transact(|t| {
//!     // A transaction function of your own: it is run again after a conflict.
//!     let value = t.read(2, 101)?.unwrap_or(0);
//!     t.write(2, 101, 2 * value)?;
//!     Ok(value)
//! })?;
//! assert_eq!((before, bank.get(2, 101)?), (1100, Some(2200)));
//! # Ok::<(), sgt::Error>(())
//! ```

mod convert;
mod engine;
mod own;
mod shared;

use convert::{fault_fields, fields_of, text_of};
pub use engine::{BatchOutcome, Engine, Ran};
pub use own::{OwnTransaction, TransactLimits};
pub use sgt_sys::Ticket;
pub use shared::{Configuration, CuttingHook, Ended, EndedHook, Limits, Live, Outcome, SharedEngine, Transaction};
use sgt_sys as c;
use std::fmt;

/// Why a transaction was aborted.
#[derive(Clone, Debug, PartialEq, Eq)]
#[non_exhaustive]
pub enum Cause {
    /// Its step would close this cycle of conflicts, which begins with the transaction itself.
    Cycle(Vec<u32>),
    /// Its procedure raised this code.
    Asked(u32),
    /// Its caller aborted it.
    Quit,
    /// A cause that this version of the crate does not know.
    Unrecognised(u32),
}

/// How a transaction ended.
#[derive(Clone, Debug, PartialEq, Eq)]
#[non_exhaustive]
pub enum Fate {
    Committed,
    Aborted(Cause),
    /// Aborted in cascade: it had read from an aborted transaction. The number is that of the abort that started the cascade.
    Fell(u32),
}

/// The reply to an event.
#[derive(Clone, Debug, PartialEq, Eq)]
#[non_exhaustive]
pub enum Reply {
    Started(u32),
    NoProcedure,
    BadArgs,
    Spent,
    Full,
    Unknown,
    Over(Fate),
    Looked { table: u8, number: i64, value: Option<i64> },
    /// No value: the record was removed.
    Wrote { table: u8, number: i64, value: Option<i64> },
    Ended,
    NotEnded,
    /// The commit has to wait for this transaction. Try it again later.
    Waits(u32),
    Committed(Vec<i64>),
    Aborted { cause: Cause, fell: Vec<u32> },
    Refused { code: u32, fell: Vec<u32> },
    /// A kind that this version of the crate does not know.
    Unrecognised(u32),
}

/// An event.
#[derive(Clone, Debug, PartialEq, Eq)]
#[non_exhaustive]
pub enum Event {
    Start { procedure: u16, args: Vec<i64> },
    Step(u32),
    Commit(u32),
    Quit(u32),
    Read { tid: u32, table: u8, number: i64 },
    Write { tid: u32, table: u8, number: i64, value: i64 },
    Remove { tid: u32, table: u8, number: i64 },
    /// A kind that this version of the crate does not know.
    Unrecognised(u32),
}

/// The kind of an access.
#[derive(Clone, Copy, Debug, PartialEq, Eq)]
#[non_exhaustive]
pub enum AccessKind {
    Read,
    Write,
    Remove,
    /// A kind that this version of the crate does not know.
    Unrecognised(u32),
}

/// An access that a transaction's caller decided, with the value that was read or written, if any.
#[derive(Clone, Copy, Debug, PartialEq, Eq)]
pub struct Access {
    pub kind: AccessKind,
    pub table: u8,
    pub number: i64,
    pub value: Option<i64>,
}

/// A record of the database, and its value.
#[derive(Clone, Copy, Debug, PartialEq, Eq)]
pub struct Row {
    pub table: u8,
    pub number: i64,
    pub value: i64,
}

/// A call that was committed or refused, with its answers or its code.
#[derive(Clone, Debug, PartialEq, Eq)]
#[non_exhaustive]
pub struct Call {
    pub tid: u32,
    pub procedure: u16,
    pub args: Vec<i64>,
    /// The answers, or the code that the procedure raised.
    pub reported: Result<Vec<i64>, u32>,
    /// The number of accesses that its caller decided.
    pub accesses: u64,
}

/// The least value, argument and record number.
pub const LEAST: i64 = -999_999_999_999_999;

/// The greatest value, argument and record number.
pub const MOST: i64 = 999_999_999_999_999;

/// As [`Configuration::cut_after`]: a history that is never cut off by itself.
pub const NEVER: u64 = u64::MAX;

/// The procedure of a call whose caller decided all its accesses.
pub const EMPTY_PROCEDURE: u16 = 65_535;

/// Why an opening or a procedure was refused.
#[derive(Clone, Debug, PartialEq, Eq)]
#[non_exhaustive]
pub enum Fault {
    NotJson,
    BadLine,
    BadLimits,
    /// An account has this fault: 1 a name twice, 2 a customer twice, 3 a number out of range.
    BadOpening(u32),
    /// The procedure of this number has its first shape error at this position.
    ProcShape(u64, Vec<u64>),
    /// The procedure of this number has this flaw, from 1 to 10.
    ProcFlaw(u64, u32),
    /// A kind that this version of the crate does not know.
    Unrecognised(u32),
}

/// Why a call failed. Unless the call says otherwise, nothing has changed.
#[derive(Clone, Debug, PartialEq, Eq)]
#[non_exhaustive]
pub enum Error {
    /// An allocation failed.
    NoMemory,
    /// An argument is out of range: more than four arguments, a table above 7, or a number of more than fifteen digits.
    BadCall,
    /// The opening or the procedure has a fault. The message is the explanation: where the error is, what was expected there and what
    /// was found. It is the fault's own text if an allocation for the explanation failed.
    Opening { fault: Fault, explanation: Option<String> },
    /// The history cannot be cut off: this many transactions are live.
    StillLive(u64),
    /// The history is not empty, so no record and no procedure can be added.
    Begun,
    /// The record of the row at this index has a value already. It is the first such row.
    Taken(u64),
    /// No number is left for a procedure.
    TooMany,
    /// Another call is in the engine, or another thread waits in one.
    Busy,
    /// The deadline came first.
    TimedOut,
    /// The transaction was aborted, and nothing of it is in the database. If that was by a conflict, try it again; else a caller aborted
    /// it. The reply says why.
    Aborted { reply: Reply, is_conflict: bool },
    /// A start was refused: no start is left.
    NotStarted(Reply),
    /// The call would wait, without a deadline, for a transaction that its own thread has to end.
    SelfWait,
    /// The transaction belongs to a part of the history that was cut off.
    Stale,
    /// A call from a hook of the same engine, or a ticket of another engine.
    Misuse,
    /// The library that is linked is of this version, which does not serve the crate.
    Version(&'static str),
    /// A status that this version of the crate does not know.
    Unrecognised(u32),
}

impl fmt::Display for Error {
    fn fmt(&self, f: &mut fmt::Formatter<'_>) -> fmt::Result {
        match self {
            Error::NoMemory => write!(f, "no memory"),
            Error::BadCall => write!(f, "a number is out of its range"),
            Error::Opening { explanation: Some(text), .. } => write!(f, "{text}"),
            Error::Opening { fault, explanation: None } => write!(f, "{fault}"),
            Error::StillLive(live) => write!(f, "{live} live"),
            Error::Begun => write!(f, "there is a history"),
            Error::Taken(at) => write!(f, "the record of row {at} has a value already"),
            Error::TooMany => write!(f, "no number is left for a procedure"),
            Error::Busy => write!(f, "another call is in the engine, or another thread waits in one"),
            Error::TimedOut => write!(f, "the deadline came"),
            Error::Aborted { reply, .. } | Error::NotStarted(reply) => write!(f, "{reply}"),
            Error::SelfWait => write!(f, "the call would wait for its own thread, without a deadline"),
            Error::Stale => write!(f, "the transaction is of a part of the history that was cut off"),
            Error::Misuse => write!(f, "the call may not be made from here, the transaction has ended, or the ticket is of another engine"),
            Error::Version(library) => {
                write!(f, "the crate is of version {}, and the library of {library}", c::VERSION)
            }
            Error::Unrecognised(status) => write!(f, "status {status}"),
        }
    }
}

/// Writes the line that `sgt script` prints for it. A reply that the library never makes is written as by `Debug`.
impl fmt::Display for Reply {
    fn fmt(&self, f: &mut fmt::Formatter<'_>) -> fmt::Result {
        let reply = fields_of(self);
        written(f, self, |to, capacity, length| unsafe { c::sgt_reply_text(&reply, to, capacity, length) })
    }
}

/// Writes the error as the program reports it.
impl fmt::Display for Fault {
    fn fmt(&self, f: &mut fmt::Formatter<'_>) -> fmt::Result {
        let fault = fault_fields(self);
        written(f, self, |to, capacity, length| unsafe { c::sgt_fault_text(&fault, to, capacity, length) })
    }
}

/// Writes the text that a C call writes into a buffer. If there is no such text, it writes the value as `Debug` does, since a
/// formatter must not fail.
fn written(
    f: &mut fmt::Formatter<'_>,
    value: &dyn fmt::Debug,
    write: impl Fn(*mut u8, usize, &mut u64) -> u32,
) -> fmt::Result {
    match text_of(write) {
        Some(text) => f.write_str(&text),
        None => write!(f, "{value:?}"),
    }
}

impl std::error::Error for Error {}

/// The version of the library that is linked. It ends in `+unproved` if that was compiled without proof.
pub fn version() -> &'static str {
    // The library returns a text that ends with a zero byte and is never freed.
    unsafe { std::ffi::CStr::from_ptr(c::sgt_version()) }.to_str().unwrap_or_default()
}

/// Whether the library that is linked serves this crate: it has the same major and minor number.
fn check_version() -> Result<(), Error> {
    let minor = |text: &'static str| text.rsplit_once('.').map(|(numbers, _)| numbers);
    if minor(version()) == minor(c::VERSION) {
        return Ok(());
    }
    Err(Error::Version(version()))
}
