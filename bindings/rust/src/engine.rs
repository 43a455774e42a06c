//! The engine for one thread at a time.
use crate::convert::{
    accesses_of, call_for, call_of, done, event_of, no_fault, opening_refused, outcome_of, procedure_refused, reply_of, row_for,
    row_of, reported,
};
use crate::{check_version, Access, Call, Error, Event, Fault, Reply, Row};
use sgt_sys as c;
use std::cell::UnsafeCell;

/// The result of a run: the number of its transaction, if one was started, and the last reply.
pub type Ran = (Option<u32>, Reply);

/// The outcome of a call of [`Engine::run_many`].
#[derive(Clone, Debug, PartialEq, Eq)]
pub struct BatchOutcome {
    /// The number of its transaction, if one was started.
    pub tid: Option<u32>,
    /// Whether a step of it wrote. A committed call that did not write has changed nothing.
    pub wrote: bool,
    /// The last reply.
    pub reply: Reply,
}

type Ask = unsafe extern "C" fn(*mut c::Engine, u32, *mut c::Reply) -> u32;

/// An engine for one thread at a time, which closes itself. Threads share a [`SharedEngine`](crate::SharedEngine).
#[derive(Debug)]
#[repr(transparent)]
pub struct Engine {
    // In a cell, since a read too marks the engine as busy.
    inner: UnsafeCell<c::Engine>,
}

// Proved by the library for the contents of the handle.
unsafe impl Send for Engine {}

impl Engine {
    /// Opens an engine by an opening's JSON text.
    pub fn open(opening: &str) -> Result<Engine, Error> {
        check_version()?;
        let (mut engine, mut fault) = zeroed();
        // The pointers are of distinct values that live during the call. The same holds for each call below.
        let status = unsafe { c::sgt_open(engine.inner.get_mut(), opening.as_ptr(), opening.len(), &mut fault) };
        opened(status, engine, &fault, opening)
    }

    /// The same, with these rows added to the database of the opening's accounts.
    pub fn open_with(opening: &str, rows: &[Row]) -> Result<Engine, Error> {
        check_version()?;
        let (mut engine, mut fault) = zeroed();
        let rows: Vec<c::Row> = rows.iter().map(row_for).collect();
        let (bytes, length) = (opening.as_ptr(), opening.len());
        let status = unsafe { c::sgt_open_with(engine.inner.get_mut(), bytes, length, rows.as_ptr(), rows.len(), &mut fault) };
        opened(status, engine, &fault, opening)
    }

    /// Opens an engine without records and procedures, not even SmallBank's: at most `live` transactions at a time, at most `begins`
    /// in all; with `asks`, codes are reported at the commit.
    pub fn open_bare(live: u32, begins: u32, asks: bool) -> Result<Engine, Error> {
        check_version()?;
        let (mut engine, _) = zeroed();
        match unsafe { c::sgt_open_bare(engine.inner.get_mut(), live.into(), begins.into(), asks.into()) } {
            c::BAD_LIMITS => Err(Error::Opening { fault: Fault::BadLimits, explanation: None }),
            status => done(status).map(|()| engine),
        }
    }

    /// Puts new records into the initial database. `Begun` if the history is not empty. Each call goes through all records.
    pub fn put(&mut self, rows: &[Row]) -> Result<(), Error> {
        let rows: Vec<c::Row> = rows.iter().map(row_for).collect();
        let mut at = 0;
        match unsafe { c::sgt_put(self.inner.get_mut(), rows.as_ptr(), rows.len(), &mut at) } {
            c::TAKEN => Err(Error::Taken(at)),
            status => done(status),
        }
    }

    /// Adds a procedure from its JSON text and returns its number. `Begun` if the history is not empty.
    pub fn procedure(&mut self, text: &str) -> Result<u16, Error> {
        let (mut number, mut fault) = (0, no_fault());
        match unsafe { c::sgt_procedure(self.inner.get_mut(), text.as_ptr(), text.len(), &mut number, &mut fault) } {
            c::NOT_JSON.. => Err(procedure_refused(&fault, text)),
            status => done(status).map(|()| number),
        }
    }

    /// Returns the JSON text of a procedure, as `procedure` takes it, if there is a procedure of that number.
    pub fn procedure_text(&self, number: u16) -> Result<Option<String>, Error> {
        let (mut text, mut length) = (Vec::new(), 0);
        loop {
            let (to, capacity) = (text.as_mut_ptr(), text.len());
            match unsafe { c::sgt_procedure_text(self.inner.get(), number.into(), to, capacity, &mut length) } {
                c::NONE => return Ok(None),
                status => done(status)?,
            }
            if length as usize <= text.len() {
                text.truncate(length as usize);
                return Ok(Some(String::from_utf8(text).expect("JSON is UTF-8")));
            }
            text.resize(length as usize, 0);
        }
    }

    /// Starts a transaction of a procedure, with at most four arguments.
    pub fn start(&mut self, procedure: u16, args: &[i64]) -> Result<Reply, Error> {
        let mut reply = c::Reply::default();
        let status = unsafe { c::sgt_start(self.inner.get_mut(), procedure.into(), args.as_ptr(), args.len(), &mut reply) };
        reported(status, &reply)
    }

    /// Runs a procedure from its start to its commit. Returns the number of its transaction, if one was started, and the last reply.
    pub fn run(&mut self, procedure: u16, args: &[i64]) -> Result<Ran, Error> {
        let mut reply = c::Reply::default();
        let mut tid = u32::MAX; // no transaction ever has this number
        let status =
            unsafe { c::sgt_run(self.inner.get_mut(), procedure.into(), args.as_ptr(), args.len(), &mut tid, &mut reply) };
        reported(status, &reply).map(|reply| ((tid != u32::MAX).then_some(tid), reply))
    }

    /// Runs these calls of procedures with their arguments one after another, as `run` does. Returns an outcome for each, also if it is
    /// refused, aborted or has to wait. `NoMemory` comes with the outcomes of the calls before it, which have run.
    pub fn run_many(&mut self, calls: &[(u16, Vec<i64>)]) -> Result<Vec<BatchOutcome>, (Vec<BatchOutcome>, Error)> {
        let calls: Option<Vec<c::Call>> = calls.iter().map(call_for).collect();
        let calls = calls.ok_or((Vec::new(), Error::BadCall))?;
        let (mut outcomes, mut done_calls) = (vec![c::Outcome::default(); calls.len()], 0);
        let (to, capacity) = (outcomes.as_mut_ptr(), outcomes.len());
        let status =
            unsafe { c::sgt_run_many(self.inner.get_mut(), calls.as_ptr(), calls.len(), to, capacity, &mut done_calls) };
        let ran = outcomes[..done_calls as usize].iter().map(outcome_of).collect();
        match done(status) {
            Ok(()) => Ok(ran),
            Err(error) => Err((ran, error)),
        }
    }

    /// Makes the next access of a transaction.
    pub fn step(&mut self, tid: u32) -> Result<Reply, Error> {
        self.ask(c::sgt_step, tid)
    }

    /// Commits a transaction, unless it has to wait.
    pub fn commit(&mut self, tid: u32) -> Result<Reply, Error> {
        self.ask(c::sgt_commit, tid)
    }

    /// Aborts a transaction.
    pub fn quit(&mut self, tid: u32) -> Result<Reply, Error> {
        self.ask(c::sgt_quit, tid)
    }

    /// Starts a transaction of no procedure: its caller decides all its accesses, by `read`, `write` and `remove`.
    pub fn begin(&mut self) -> Result<Reply, Error> {
        let mut reply = c::Reply::default();
        let status = unsafe { c::sgt_begin(self.inner.get_mut(), &mut reply) };
        reported(status, &reply)
    }

    /// Reads a record for a transaction whose procedure is at its end.
    pub fn read(&mut self, tid: u32, table: u8, number: i64) -> Result<Reply, Error> {
        let mut reply = c::Reply::default();
        let status = unsafe { c::sgt_read(self.inner.get_mut(), tid, table.into(), number, &mut reply) };
        reported(status, &reply)
    }

    /// Writes a record in the same way. If the value is out of range, the reply is `BadArgs`.
    pub fn write(&mut self, tid: u32, table: u8, number: i64, value: i64) -> Result<Reply, Error> {
        let mut reply = c::Reply::default();
        let status = unsafe { c::sgt_write(self.inner.get_mut(), tid, table.into(), number, value, &mut reply) };
        reported(status, &reply)
    }

    /// Removes a record in the same way. The reply is that of a write of no value.
    pub fn remove(&mut self, tid: u32, table: u8, number: i64) -> Result<Reply, Error> {
        let mut reply = c::Reply::default();
        let status = unsafe { c::sgt_remove(self.inner.get_mut(), tid, table.into(), number, &mut reply) };
        reported(status, &reply)
    }

    /// Returns the accesses that the caller of a transaction decided, in their order.
    pub fn accesses(&self, tid: u32) -> Result<Vec<Access>, Error> {
        accesses_of(|to, capacity, count| unsafe { c::sgt_accesses(self.inner.get(), tid, to, capacity, count) })
    }

    /// Returns the committed value of a record, or none if there is no such record.
    pub fn get(&self, table: u8, number: i64) -> Result<Option<i64>, Error> {
        let mut value = 0;
        match unsafe { c::sgt_get(self.inner.get(), table.into(), number, &mut value) } {
            c::NONE => Ok(None),
            status => done(status).map(|()| Some(value)),
        }
    }

    /// Returns the committed database from a record on, in order of tables and then of numbers. From table 0, number `LEAST` on, it is
    /// the whole.
    pub fn rows(&self, table: u8, number: i64) -> Result<Vec<Row>, Error> {
        let mut count = 0;
        done(unsafe { c::sgt_rows(self.inner.get(), table.into(), number, Vec::new().as_mut_ptr(), 0, &mut count) })?;
        let mut rows = vec![c::Row::default(); count as usize];
        done(unsafe { c::sgt_rows(self.inner.get(), table.into(), number, rows.as_mut_ptr(), rows.len(), &mut count) })?;
        Ok(rows.iter().map(row_of).collect())
    }

    /// Returns the number of records of the committed database.
    pub fn records(&self) -> Result<u64, Error> {
        let mut count = 0;
        done(unsafe { c::sgt_records(self.inner.get(), &mut count) }).map(|()| count)
    }

    /// Whether a transaction, live or not, has written or removed a record.
    pub fn has_written(&self, tid: u32) -> Result<bool, Error> {
        let mut wrote = 0;
        done(unsafe { c::sgt_wrote(self.inner.get(), tid, &mut wrote) }).map(|()| wrote == 1)
    }

    /// Returns the numbers of the live transactions, rising.
    pub fn live(&self) -> Result<Vec<u32>, Error> {
        let (mut tids, mut count) = ([0; 32], 0); // no more are ever live
        done(unsafe { c::sgt_live_tids(self.inner.get(), tids.as_mut_ptr(), &mut count) })?;
        Ok(tids[..count as usize].to_vec())
    }

    /// Returns the three limits, as an opening has them: the most live transactions, the most starts, and when codes are reported.
    pub fn limits(&self) -> Result<[u64; 3], Error> {
        let mut limits = [0; 3];
        done(unsafe { c::sgt_limits(self.inner.get(), limits.as_mut_ptr()) }).map(|()| limits)
    }

    /// Returns how often the history was cut. With this number, the number of a transaction is unique.
    pub fn part(&self) -> u64 {
        let mut part = 0;
        unsafe { c::sgt_part(self.inner.get(), &mut part) };
        part
    }

    /// Returns the number of entries of the history.
    pub fn entries(&self) -> u64 {
        let mut count = 0;
        unsafe { c::sgt_entries(self.inner.get(), &mut count) };
        count
    }

    /// Returns the entry of the history at an index, oldest first, or none if the history is shorter.
    pub fn entry(&self, place: u64) -> Option<(Event, Reply)> {
        let (mut event, mut reply) = (c::Event::default(), c::Reply::default());
        match unsafe { c::sgt_entry(self.inner.get(), place, &mut event, &mut reply) } {
            c::OK => Some((event_of(&event), reply_of(&reply))),
            _ => None,
        }
    }

    /// Returns the committed and refused calls of the history from an index on, in reply order, at most `most`, and the index to go on
    /// from. Run one after another, these calls give the same answers. `None` if the history is shorter.
    pub fn calls(&self, from: u64, most: usize) -> Result<Option<(Vec<Call>, u64)>, Error> {
        let (mut calls, mut count, mut next) = (vec![c::Call::default(); most], 0, 0);
        let to = calls.as_mut_ptr();
        match unsafe { c::sgt_calls(self.inner.get(), from, to, most, &mut count, &mut next) } {
            c::NONE => Ok(None),
            status => done(status).map(|()| Some((calls[..count as usize].iter().map(call_of).collect(), next))),
        }
    }

    /// Allocates memory for this many more entries.
    pub fn reserve(&mut self, entries: u64) -> Result<(), Error> {
        done(unsafe { c::sgt_reserve(self.inner.get_mut(), entries) })
    }

    /// Cuts the history off. `StillLive` if a transaction is live; then nothing has changed.
    pub fn cut(&mut self) -> Result<(), Error> {
        let mut live = 0;
        match unsafe { c::sgt_cut(self.inner.get_mut(), &mut live) } {
            c::STILL_LIVE => Err(Error::StillLive(live)),
            status => done(status),
        }
    }

    /// The engine, as the library has it.
    pub(crate) fn handle(&mut self) -> &mut c::Engine {
        self.inner.get_mut()
    }

    fn ask(&mut self, event: Ask, tid: u32) -> Result<Reply, Error> {
        let mut reply = c::Reply::default();
        let status = unsafe { event(self.inner.get_mut(), tid, &mut reply) };
        reported(status, &reply)
    }
}

impl Drop for Engine {
    fn drop(&mut self) {
        unsafe { c::sgt_close(self.inner.get_mut()) }
    }
}

fn zeroed() -> (Engine, c::Fault) {
    (Engine { inner: UnsafeCell::new(c::Engine { is_open: 0, at: std::ptr::null_mut() }) }, no_fault())
}

fn opened(status: u32, engine: Engine, fault: &c::Fault, opening: &str) -> Result<Engine, Error> {
    match status {
        c::NOT_JSON.. => Err(opening_refused(fault, opening)),
        _ => done(status).map(|()| engine),
    }
}
