//! Transactions whose caller decides the accesses.
use crate::convert::{done, reply_of};
use crate::shared::nanoseconds;
use crate::{Error, Reply, SharedEngine};
use sgt_sys::{self as c, Ticket};
use std::cell::UnsafeCell;
use std::mem::size_of;
use std::time::{Duration, Instant};

/// How long a transaction function may wait, and after how many conflicts it is run alone.
#[derive(Clone, Copy, Debug)]
pub struct TransactLimits {
    /// None: without a limit.
    pub wait: Option<Duration>,
    /// After this many aborts by a conflict the next try is made alone. 0: the first one is.
    pub tries: u32,
}

impl Default for TransactLimits {
    fn default() -> TransactLimits {
        TransactLimits { wait: None, tries: 8 }
    }
}

/// A transaction whose accesses you decide, of [`SharedEngine::transact`] or [`SharedEngine::begin`]. Dropping it aborts it, unless it has
/// ended before.
///
/// A body gets it by a shared reference, so that it can neither commit it nor put another one in its place:
///
/// ```compile_fail,E0308
/// # fn body(bank: &sgt::SharedEngine) -> Result<(), sgt::Error> {
/// bank.transact(|t| std::mem::replace(t, bank.begin(None)?).commit(None))
/// # }
/// ```
///
/// Each call is `Aborted` if the transaction has been aborted, `NoMemory`, or `BadCall` if a number is out of range. What it reads may be
/// uncommitted, and be undone afterwards. So act on it only after the commit.
#[must_use = "a transaction that is dropped is aborted"]
pub struct OwnTransaction {
    engine: SharedEngine,
    // In a cell, since an access writes it. So one thread at a time uses it: there are no references to what is in it
    // during a call.
    reported: UnsafeCell<c::Transaction>,
}

// Its pointer is that of the engine, whose calls any thread may make.
unsafe impl Send for OwnTransaction {}

impl std::fmt::Debug for OwnTransaction {
    fn fmt(&self, f: &mut std::fmt::Formatter<'_>) -> std::fmt::Result {
        f.debug_struct("OwnTransaction").field("ticket", &self.ticket()).finish_non_exhaustive()
    }
}

impl SharedEngine {
    /// Runs a function of yours as a transaction, commits it, and returns what it returned. It reads and writes by
    /// [`OwnTransaction::read`], [`write`](OwnTransaction::write) and [`remove`](OwnTransaction::remove), each with `?`.
    ///
    /// The body is run again after a conflict, so it must have no effects but these. What it reads may be uncommitted, and be undone
    /// afterwards: act on it after the commit, when this call has returned `Ok`. An error of the body aborts the transaction and is
    /// returned, unless a conflict had come first; it may rest on a value that is undone. To refuse truthfully, return the refusal as `Ok`
    /// without a write: once that is committed, it is true. If the body panics, the transaction is aborted.
    ///
    /// If a hook panics, so does the body or this call. Nothing is committed then, unless the hook panicked in the
    /// commit.
    ///
    /// After 8 conflicts the next try is made alone: others wait until it has ended, and it has no conflicts.
    ///
    /// `Aborted` if another caller aborted the transaction; `NotStarted` if no start is left; `SelfWait`; `NoMemory`. Then nothing of it is
    /// left live. If a call of the transaction failed, nothing is committed, and the error is that of this call.
    pub fn transact<R>(&self, body: impl FnMut(&OwnTransaction) -> Result<R, Error>) -> Result<R, Error> {
        self.transact_within(TransactLimits::default(), body)
    }

    /// The same within limits, and with errors of your own. `TimedOut` if the deadline comes first, which does not interrupt the body.
    pub fn transact_within<R, E: From<Error>>(
        &self,
        limits: TransactLimits,
        mut body: impl FnMut(&OwnTransaction) -> Result<R, E>,
    ) -> Result<R, E> {
        let until = limits.wait.and_then(|wait| Instant::now().checked_add(wait));
        let left = || nanoseconds(until.map(|until| until.saturating_duration_since(Instant::now())));
        let transaction = OwnTransaction::new(self);
        loop {
            transaction.start(limits.tries, left())?;
            match body(&transaction) {
                Ok(result) if transaction.is_committed(left())? => return Ok(result),
                Ok(_) => {}
                Err(why) if !transaction.ends_undone() => return Err(why),
                Err(_) => {}
            }
        }
    }

    /// Starts a transaction whose accesses you decide. `NotStarted` if no start is left; `TimedOut`; `SelfWait`; `NoMemory`.
    pub fn begin(&self, wait: Option<Duration>) -> Result<OwnTransaction, Error> {
        let transaction = OwnTransaction::new(self);
        transaction.start(u32::MAX, nanoseconds(wait))?; // it has one try, so it is never alone
        Ok(transaction)
    }
}

impl OwnTransaction {
    /// Identifies the last try: once it is committed, that of its `Ended`.
    pub fn ticket(&self) -> Ticket {
        self.reported().ticket
    }

    /// How many transactions were started for it, this one included.
    pub fn tries(&self) -> u32 {
        self.reported().tries
    }

    /// Returns the value of a record, or none if there is no such record.
    pub fn read(&self, table: u8, number: i64) -> Result<Option<i64>, Error> {
        let mut value = 0;
        match unsafe { c::sgt_transaction_read(self.reported.get(), table.into(), number, &mut value) } {
            c::NONE => Ok(None),
            status => self.checked(status).map(|()| Some(value)),
        }
    }

    /// Writes a record.
    pub fn write(&self, table: u8, number: i64, value: i64) -> Result<(), Error> {
        let status = unsafe { c::sgt_transaction_write(self.reported.get(), table.into(), number, value) };
        self.checked(status)
    }

    /// Removes a record. Does nothing if there is none.
    pub fn remove(&self, table: u8, number: i64) -> Result<(), Error> {
        let status = unsafe { c::sgt_transaction_remove(self.reported.get(), table.into(), number) };
        self.checked(status)
    }

    /// Commits it, and waits for its predecessors; `None` without a limit. `TimedOut` if the deadline comes first, or `SelfWait`; then it
    /// was aborted.
    pub fn commit(self, wait: Option<Duration>) -> Result<(), Error> {
        match self.is_committed(nanoseconds(wait))? {
            true => Ok(()),
            false => Err(self.aborted()),
        }
    }

    /// Aborts it, unless it has ended.
    pub fn quit(self) {
        self.ends_undone();
    }

    /// What is noted of it now.
    fn reported(&self) -> &c::Transaction {
        // The library writes it in calls of this thread alone, and none of them is made while the caller has this
        // reference.
        unsafe { &*self.reported.get() }
    }

    fn new(engine: &SharedEngine) -> OwnTransaction {
        let reported = c::Transaction {
            size: size_of::<c::Transaction>(),
            shared: std::ptr::null_mut(),
            ticket: Ticket::default(),
            sequence: u64::MAX,
            ends: 0,
            tries: 0,
            waits: 0,
            status: c::OK,
            is_live: 0,
            reply: c::Reply::default(),
        };
        OwnTransaction { engine: engine.clone(), reported: UnsafeCell::new(reported) }
    }

    /// Starts the next try: alone after `tries` tries.
    fn start(&self, tries: u32, wait_ns: i64) -> Result<(), Error> {
        let options = c::TransactOptions { size: size_of::<c::TransactOptions>(), wait_ns, tries, spare: 0 };
        done(unsafe { c::sgt_shared_try(self.engine.at(), self.reported.get(), &options) })?;
        match reply_of(&self.reported().reply) {
            Reply::Started(_) => Ok(()),
            refused => Err(Error::NotStarted(refused)),
        }
    }

    /// Commits it. False if it was aborted by a conflict.
    fn is_committed(&self, wait_ns: i64) -> Result<bool, Error> {
        match unsafe { c::sgt_transaction_commit(self.reported.get(), wait_ns) } {
            c::UNDONE => return Ok(false),
            status => done(status)?,
        }
        match reply_of(&self.reported().reply) {
            Reply::Committed(_) => Ok(true),
            _ => Err(self.aborted()),
        }
    }

    /// Aborts it, unless it has ended. Whether it was aborted by a conflict.
    fn ends_undone(&self) -> bool {
        unsafe { c::sgt_transaction_quit(self.reported.get()) == c::UNDONE }
    }

    fn checked(&self, status: u32) -> Result<(), Error> {
        match status {
            c::UNDONE => Err(self.aborted()),
            status => done(status),
        }
    }

    fn aborted(&self) -> Error {
        Error::Aborted { reply: reply_of(&self.reported().reply), is_conflict: self.reported().status == c::UNDONE }
    }
}

impl Drop for OwnTransaction {
    fn drop(&mut self) {
        if self.reported().is_live != 0 {
            // The abort of a live transaction never fails, also inside the engine's hook. One that has ended or was cut
            // off needs none. It calls no hook, so it does not panic.
            let _ = unsafe { c::sgt_shared_abandon(self.engine.at(), &self.ticket()) };
        }
    }
}
