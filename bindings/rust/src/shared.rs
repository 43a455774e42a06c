//! One engine for many threads.
use crate::convert::{accesses_of, call_of, done, no_fault, opening_refused, reply_of, row_for, row_of};
use crate::{check_version, Access, Call, Engine, Error, Reply, Row};
use sgt_sys::{self as c, Ticket};
use std::mem::size_of;
use std::os::raw::c_void;
use std::sync::Arc;
use std::time::Duration;

/// A call of a shared engine that was committed or refused.
#[derive(Clone, Debug, PartialEq, Eq)]
#[non_exhaustive]
pub struct Ended {
    /// Counts these calls from 0 in reply order, over all parts. Run one after another in this order, they give the same answers.
    pub sequence: u64,
    pub ticket: Ticket,
    pub call: Call,
    /// Whether it was committed, and has written or removed a record. A call that did not write changes nothing.
    pub wrote: bool,
}

/// A live transaction, as [`SharedEngine::live`] returns it.
#[derive(Clone, Debug, PartialEq, Eq)]
#[non_exhaustive]
pub struct Live {
    pub ticket: Ticket,
    pub procedure: u16,
    /// How long it has been live.
    pub age: Duration,
    /// Whether a thread waits for its commit.
    pub waits: bool,
}

/// A hook that is called for each committed or refused call: [`Configuration::ended`].
pub type EndedHook = Box<dyn FnMut(Ended) + Send>;

/// A hook that is called before each cut: [`Configuration::cutting`].
pub type CuttingHook = Box<dyn FnMut(&Engine, u64) + Send>;

/// The configuration of a shared engine.
///
/// If a hook panics, so does the call in which it was called, and the engine goes on. A drop of a transaction and a
/// drain call no hook.
#[derive(Default)]
pub struct Configuration {
    /// Called for each committed or refused call, in reply order, under the engine's lock, by the call that it is. If
    /// it panics, this call has been carried out.
    pub ended: Option<EndedHook>,
    /// Called before each cut with the engine, whose history and database it may read, and with the number of the part
    /// that is cut off. The engine's lock is held, so it may not call the shared engine. If it panics, there is no cut.
    /// The call that was to cut has been carried out, unless it is [`SharedEngine::cut`], or was to cut before it
    /// starts a transaction: then nothing was started. If memory is short the cut fails, and the hook is called again
    /// for the same part later.
    pub cutting: Option<CuttingHook>,
    /// Whether these calls are stored until [`SharedEngine::drain`] takes them.
    pub keeps_ended: bool,
    /// The history is cut off once it has this many entries and no transaction is live. [`NEVER`](crate::NEVER): never. 0: never with
    /// a hook or `keeps_ended`, and else after a million entries, or after four for each record of the opening if these are more.
    pub cut_after: u64,
    /// How long new transactions wait for the live ones to end when such a cut is due.
    pub cut_wait: Duration,
}

/// How often a run is tried, and how long it may wait.
#[derive(Clone, Copy, Debug, Default)]
pub struct Limits {
    /// None: without a limit.
    pub wait: Option<Duration>,
    /// 0: without a limit.
    pub tries: u32,
}

/// The outcome of a run.
#[derive(Clone, Debug, PartialEq, Eq)]
#[must_use]
#[non_exhaustive]
pub struct Outcome {
    /// How many transactions were started for it.
    pub tries: u32,
    /// How often it waited.
    pub waits: u32,
    /// The last transaction, if one was started.
    pub ticket: Option<Ticket>,
    /// That of its [`Ended`], if it was committed or refused.
    pub sequence: Option<u64>,
    pub reply: Reply,
}

/// What the library calls, under its lock, so one thread at a time, and never one hook inside the other.
struct Hooks {
    ended: Option<EndedHook>,
    cutting: Option<CuttingHook>,
}

/// The part that all clones of an engine share.
struct Inner {
    shared: *mut c::Shared,
    /// The hooks, to which their context points.
    hooks: *mut Hooks,
}

// Each call of sgt_shared.h may be made by any thread at any time, and the hooks are `Send`.
unsafe impl Send for Inner {}
unsafe impl Sync for Inner {}

impl Drop for Inner {
    fn drop(&mut self) {
        // This is the last clone, so no thread is in a call. A close from inside the engine's own hook is a misuse: then both are leaked.
        let status = unsafe { c::sgt_shared_close(&mut self.shared) };
        if status == c::OK || status == c::CLOSED {
            // They were made by `Box::into_raw`, and the library does not call them any more.
            drop(unsafe { Box::from_raw(self.hooks) });
        }
    }
}

/// One engine for many threads. A clone is the same engine; the last one closes it.
#[derive(Clone)]
pub struct SharedEngine(Arc<Inner>);

impl std::fmt::Debug for SharedEngine {
    fn fmt(&self, f: &mut std::fmt::Formatter<'_>) -> std::fmt::Result {
        f.debug_struct("SharedEngine").finish_non_exhaustive()
    }
}

impl SharedEngine {
    /// Opens an engine by an opening's JSON text.
    pub fn open(opening: &str) -> Result<SharedEngine, Error> {
        SharedEngine::open_with(opening, &[], Configuration::default())
    }

    /// The same, with these rows added to the database of the opening's accounts.
    pub fn open_with(opening: &str, rows: &[Row], with: Configuration) -> Result<SharedEngine, Error> {
        check_version()?;
        let rows: Vec<c::Row> = rows.iter().map(row_for).collect();
        let ((mut inner, config), mut fault) = (configured(with), no_fault());
        let (bytes, length) = (opening.as_ptr(), opening.len());
        // The pointers are of distinct values that live during the call. The same holds for each call below.
        let status = unsafe {
            c::sgt_shared_open(&mut inner.shared, bytes, length, rows.as_ptr(), rows.len(), &config, &mut fault)
        };
        match status {
            c::NOT_JSON.. => Err(opening_refused(&fault, opening)),
            _ => done(status).map(|()| SharedEngine(Arc::new(inner))),
        }
    }

    /// Takes over an engine without a history: one that `put` and `procedure` have prepared, say. `Begun` if it has a history; it is closed
    /// then, too.
    pub fn take(mut engine: Engine, with: Configuration) -> Result<SharedEngine, Error> {
        let (mut inner, config) = configured(with);
        done(unsafe { c::sgt_shared_take(&mut inner.shared, engine.handle(), &config) }).map(|()| SharedEngine(Arc::new(inner)))
    }

    /// Runs a procedure from its start to its commit, with at most four arguments. It waits and tries again as often as needed.
    pub fn run(&self, procedure: u16, args: &[i64]) -> Result<Outcome, Error> {
        self.run_within(procedure, args, Limits::default())
    }

    /// The same within limits. `TimedOut` if the deadline comes first; then no transaction of it is left live.
    pub fn run_within(&self, procedure: u16, args: &[i64], limits: Limits) -> Result<Outcome, Error> {
        let options = c::RunOptions {
            size: size_of::<c::RunOptions>(),
            wait_ns: nanoseconds(limits.wait),
            tries: limits.tries,
            spare: 0,
        };
        let mut outcome = c::SharedOutcome { size: size_of::<c::SharedOutcome>(), ..c::SharedOutcome::default() };
        done(unsafe {
            c::sgt_shared_run(self.at(), procedure.into(), args.as_ptr(), args.len(), &options, &mut outcome)
        })?;
        Ok(Outcome {
            tries: outcome.tries,
            waits: outcome.waits,
            ticket: (outcome.tries > 0).then_some(outcome.ticket),
            sequence: (outcome.sequence != u64::MAX).then_some(outcome.sequence),
            reply: reply_of(&outcome.reply),
        })
    }

    /// Starts a transaction. Returns it, or the reply if the start is refused. A wait of `None` has no limit.
    pub fn start(
        &self,
        procedure: u16,
        args: &[i64],
        wait: Option<Duration>,
    ) -> Result<Result<Transaction, Reply>, Error> {
        let (mut ticket, mut reply) = (Ticket::default(), c::Reply::default());
        let (count, wait) = (args.len(), nanoseconds(wait));
        done(unsafe {
            c::sgt_shared_start(self.at(), procedure.into(), args.as_ptr(), count, wait, &mut ticket, &mut reply)
        })?;
        Ok(match reply_of(&reply) {
            Reply::Started(_) => Ok(Transaction { engine: self.clone(), ticket, is_live: true, waits_for: None }),
            refused => Err(refused),
        })
    }

    /// Aborts the transaction of a ticket, which `live` returns.
    pub fn quit(&self, ticket: Ticket) -> Result<Reply, Error> {
        let mut reply = c::Reply::default();
        done(unsafe { c::sgt_shared_quit(self.at(), &ticket, &mut reply) }).map(|()| reply_of(&reply))
    }

    /// Returns the accesses that the caller of a transaction decided, in their order. `Stale` once the history is cut. The hook of the
    /// engine may call it. The cost grows with the entries since its start, so ask soon.
    pub fn accesses(&self, ticket: Ticket) -> Result<Vec<Access>, Error> {
        accesses_of(|to, capacity, count| unsafe { c::sgt_shared_accesses(self.at(), &ticket, to, capacity, count) })
    }

    /// Returns the live transactions.
    pub fn live(&self) -> Result<Vec<Live>, Error> {
        let (mut rows, mut count) = ([c::Live::default(); 32], 0); // no more are ever live
        done(unsafe { c::sgt_shared_live(self.at(), rows.as_mut_ptr(), rows.len(), &mut count) })?;
        Ok(rows[..count as usize].iter().map(live_of).collect())
    }

    /// Cuts the history off once no transaction is live. New ones wait meanwhile.
    pub fn cut(&self, wait: Option<Duration>) -> Result<(), Error> {
        done(unsafe { c::sgt_shared_cut(self.at(), nanoseconds(wait)) })
    }

    /// Returns the committed value of a record, or none if there is no such record.
    pub fn get(&self, table: u8, number: i64) -> Result<Option<i64>, Error> {
        let mut value = 0;
        match unsafe { c::sgt_shared_get(self.at(), table.into(), number, &mut value) } {
            c::NONE => Ok(None),
            status => done(status).map(|()| Some(value)),
        }
    }

    /// Returns the committed database from a record on, in order of tables and then of numbers.
    pub fn rows(&self, table: u8, number: i64) -> Result<Vec<Row>, Error> {
        let (mut rows, mut count) = (Vec::new(), 0);
        loop {
            let (to, capacity) = (rows.as_mut_ptr(), rows.len());
            done(unsafe { c::sgt_shared_rows(self.at(), table.into(), number, to, capacity, &mut count) })?;
            let fits = count as usize <= capacity;
            rows.resize(count as usize, c::Row::default());
            if fits {
                return Ok(rows.iter().map(row_of).collect());
            }
        }
    }

    /// Returns the three limits, as `Engine::limits` does.
    pub fn limits(&self) -> Result<[u64; 3], Error> {
        let mut limits = [0; 3];
        done(unsafe { c::sgt_shared_limits(self.at(), limits.as_mut_ptr()) }).map(|()| limits)
    }

    /// Returns the number of entries of the history since the last cut.
    pub fn entries(&self) -> Result<u64, Error> {
        let mut count = 0;
        done(unsafe { c::sgt_shared_entries(self.at(), &mut count, std::ptr::null_mut()) }).map(|()| count)
    }

    /// Takes at most `most` of the stored calls. Returns an empty list if none comes in time. `BadCall` if the engine
    /// stores none. It calls no hook, so that nothing that was taken is lost.
    pub fn drain(&self, most: usize, wait: Option<Duration>) -> Result<Vec<Ended>, Error> {
        let (mut calls, mut count) = (vec![c::Ended::default(); most], 0);
        let (to, wait) = (calls.as_mut_ptr(), nanoseconds(wait));
        done(unsafe { c::sgt_shared_drain(self.at(), wait, to, most, &mut count) })?;
        Ok(calls[..count as usize].iter().map(ended_of).collect())
    }

    pub(crate) fn at(&self) -> *mut c::Shared {
        self.0.shared
    }
}

/// A transaction of a shared engine. Dropping it aborts it, unless it has ended before.
#[derive(Debug)]
#[must_use = "a transaction that is dropped is aborted"]
pub struct Transaction {
    engine: SharedEngine,
    ticket: Ticket,
    is_live: bool,
    waits_for: Option<u32>,
}

impl Transaction {
    pub fn ticket(&self) -> Ticket {
        self.ticket
    }

    /// Makes the next access of the procedure.
    pub fn step(&mut self) -> Result<Reply, Error> {
        let mut reply = c::Reply::default();
        let status = unsafe { c::sgt_shared_step(self.engine.at(), &self.ticket, &mut reply) };
        self.reported(status, &reply)
    }

    /// Commits it, and waits for its predecessors; `None` without a limit. `TimedOut` if the deadline comes first; it is still live then,
    /// and `waits_for` names the predecessor.
    pub fn commit(&mut self, wait: Option<Duration>) -> Result<Reply, Error> {
        let mut reply = c::Reply::default();
        let status = unsafe { c::sgt_shared_commit(self.engine.at(), &self.ticket, nanoseconds(wait), &mut reply) };
        self.waits_for = match reply_of(&reply) {
            Reply::Waits(first) => Some(first),
            _ => None,
        };
        self.reported(status, &reply)
    }

    /// The number of the transaction that the last commit waits for, if its error was `TimedOut` or `SelfWait`.
    pub fn waits_for(&self) -> Option<u32> {
        self.waits_for
    }

    /// Aborts it.
    pub fn quit(mut self) -> Result<Reply, Error> {
        self.is_live = false;
        self.engine.quit(self.ticket)
    }

    fn reported(&mut self, status: u32, reply: &c::Reply) -> Result<Reply, Error> {
        done(status)?;
        let reply = reply_of(reply);
        if let Reply::Committed(_) | Reply::Aborted { .. } | Reply::Refused { .. } | Reply::Over(_) = reply {
            self.is_live = false;
        }
        Ok(reply)
    }
}

impl Drop for Transaction {
    fn drop(&mut self) {
        if self.is_live {
            // The abort of a live transaction never fails, also inside the engine's hook. One that has ended or was cut
            // off needs none. It calls no hook, so it does not panic.
            let _ = unsafe { c::sgt_shared_abandon(self.engine.at(), &self.ticket) };
        }
    }
}

/// Returns what a shared engine keeps, and its configuration in the library's form, which points to the hooks.
fn configured(with: Configuration) -> (Inner, c::SharedConfig) {
    let hooks = Hooks { ended: with.ended, cutting: with.cutting };
    let (ended, cutting) = (hooks.ended.is_some(), hooks.cutting.is_some());
    let hooks = Box::into_raw(Box::new(hooks));
    let config = c::SharedConfig {
        size: size_of::<c::SharedConfig>(),
        ended: ended.then_some(report as c::EndedHook),
        cutting: cutting.then_some(report_cut as c::CuttingHook),
        context: hooks.cast(),
        keeps_ended: with.keeps_ended.into(),
        asks_to_cut: 0,
        cut_after: with.cut_after,
        cut_wait_ns: nanoseconds(Some(with.cut_wait)),
    };
    (Inner { shared: std::ptr::null_mut(), hooks }, config)
}

/// The hook `ended`, for C.
unsafe extern "C-unwind" fn report(context: *mut c_void, call: *const c::Ended) {
    // The context is that of the engine's `Inner`, which lives as long as the engine. The call is a value of the library.
    let (hooks, call) = unsafe { (&mut *context.cast::<Hooks>(), &*call) };
    if let Some(hook) = &mut hooks.ended {
        hook(ended_of(call));
    }
}

/// The hook `cutting`, for C.
unsafe extern "C-unwind" fn report_cut(context: *mut c_void, engine: *mut c::Engine, part: u64) {
    // The same context. The engine is the library's, an `Engine` has no other field, and a borrowed one is not closed.
    let (hooks, engine) = unsafe { (&mut *context.cast::<Hooks>(), &*engine.cast::<Engine>()) };
    if let Some(hook) = &mut hooks.cutting {
        hook(engine, part);
    }
}

/// Returns a deadline in the library's form. A duration that is too long for it has no limit.
pub(crate) fn nanoseconds(wait: Option<Duration>) -> i64 {
    wait.map_or(c::FOREVER, |wait| i64::try_from(wait.as_nanos()).unwrap_or(c::FOREVER))
}

fn live_of(live: &c::Live) -> Live {
    Live {
        ticket: live.ticket,
        procedure: live.procedure as u16,
        age: Duration::from_nanos(live.for_ns.max(0) as u64),
        waits: live.waits != 0,
    }
}

fn ended_of(ended: &c::Ended) -> Ended {
    Ended { sequence: ended.sequence, ticket: ended.ticket, call: call_of(&ended.call), wrote: ended.wrote == 1 }
}
