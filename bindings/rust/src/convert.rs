//! Conversions between the structs of C and the types of Rust.
use crate::{Access, AccessKind, BatchOutcome, Call, Cause, Error, Event, Fate, Fault, Reply, Row};
use sgt_sys as c;

pub(crate) fn no_fault() -> c::Fault {
    c::Fault { kind: 0, number: 0, procedure: 0, depth: 0, spare: 0, place: [0; 128] }
}

pub(crate) fn row_for(row: &Row) -> c::Row {
    c::Row { table: row.table.into(), spare: 0, number: row.number, value: row.value }
}

pub(crate) fn row_of(row: &c::Row) -> Row {
    Row { table: row.table as u8, number: row.number, value: row.value }
}

fn fault_of(fault: &c::Fault) -> Fault {
    match fault.kind {
        c::NOT_JSON => Fault::NotJson,
        c::BAD_LINE => Fault::BadLine,
        c::BAD_LIMITS => Fault::BadLimits,
        c::BAD_OPENING => Fault::BadOpening(fault.number),
        c::PROC_SHAPE => Fault::ProcShape(fault.procedure, fault.place[..fault.depth as usize].to_vec()),
        c::PROC_FLAW => Fault::ProcFlaw(fault.procedure, fault.number),
        kind => Fault::Unrecognised(kind),
    }
}

/// The text that a call writes into a buffer: it is called with a small one, and again where that was too small. None if it writes
/// none.
pub(crate) fn text_of(write: impl Fn(*mut u8, usize, &mut u64) -> u32) -> Option<String> {
    let (mut text, mut length) = (vec![0; 64], 0);
    loop {
        // The pointer is to as many bytes as are said to be there.
        if write(text.as_mut_ptr(), text.len(), &mut length) != 0 {
            return None;
        }
        match text.get(..length as usize) {
            Some(text) => return Some(String::from_utf8_lossy(text).into_owned()),
            None => text.resize(length as usize, 0),
        }
    }
}

/// The error of an opening that has this fault.
pub(crate) fn opening_refused(fault: &c::Fault, opening: &str) -> Error {
    let (from, count) = (opening.as_ptr(), opening.len());
    let explanation = text_of(|to, capacity, length| unsafe { c::sgt_explain_opening(from, count, to, capacity, length) });
    Error::Opening { fault: fault_of(fault), explanation }
}

/// The error of a procedure's text that has this fault.
pub(crate) fn procedure_refused(fault: &c::Fault, text: &str) -> Error {
    let (number, from, count) = (fault.procedure, text.as_ptr(), text.len());
    let explanation = text_of(|to, capacity, length| unsafe { c::sgt_explain_procedure(number, from, count, to, capacity, length) });
    Error::Opening { fault: fault_of(fault), explanation }
}

pub(crate) fn fault_fields(fault: &Fault) -> c::Fault {
    let mut fields = no_fault();
    match fault {
        Fault::NotJson => fields.kind = 16,
        Fault::BadLine => fields.kind = 17,
        Fault::BadLimits => fields.kind = 18,
        Fault::BadOpening(number) => (fields.kind, fields.number) = (19, *number),
        Fault::ProcShape(procedure, place) => {
            (fields.kind, fields.procedure) = (20, *procedure);
            fields.depth = filled(&mut fields.place, place);
        }
        Fault::ProcFlaw(procedure, flaw) => {
            (fields.kind, fields.procedure, fields.number) = (21, *procedure, *flaw);
        }
        Fault::Unrecognised(kind) => fields.kind = *kind,
    }
    fields
}

/// Copies as many as fit, and returns how many.
fn filled<T: Copy>(to: &mut [T], from: &[T]) -> u32 {
    let count = to.len().min(from.len());
    to[..count].copy_from_slice(&from[..count]);
    count as u32
}

fn cause_fields(fields: &mut c::Reply, cause: &Cause) {
    match cause {
        Cause::Cycle(walk) => (fields.cause, fields.walked) = (1, filled(&mut fields.walk, walk)),
        Cause::Asked(code) => (fields.cause, fields.code) = (2, *code),
        Cause::Quit => fields.cause = 3,
        Cause::Unrecognised(cause) => fields.cause = *cause,
    }
}

pub(crate) fn fields_of(reply: &Reply) -> c::Reply {
    let mut fields = c::Reply::default();
    match reply {
        Reply::Started(tid) => (fields.kind, fields.tid) = (1, *tid),
        Reply::NoProcedure => fields.kind = 2,
        Reply::BadArgs => fields.kind = 3,
        Reply::Spent => fields.kind = 4,
        Reply::Full => fields.kind = 5,
        Reply::Unknown => fields.kind = 6,
        Reply::Over(fate) => {
            fields.kind = 7;
            match fate {
                Fate::Committed => fields.cause = 0,
                Fate::Aborted(cause) => cause_fields(&mut fields, cause),
                Fate::Fell(first) => (fields.cause, fields.tid) = (4, *first),
            }
        }
        Reply::Looked { table, number, value } => {
            (fields.kind, fields.table, fields.number) = (8, u32::from(*table), *number);
            (fields.found, fields.value) = (u32::from(value.is_some()), value.unwrap_or(0));
        }
        Reply::Wrote { table, number, value } => {
            (fields.kind, fields.table, fields.number) = (9, u32::from(*table), *number);
            (fields.found, fields.value) = (u32::from(value.is_some()), value.unwrap_or(0));
        }
        Reply::Ended => fields.kind = 10,
        Reply::NotEnded => fields.kind = 11,
        Reply::Waits(first) => (fields.kind, fields.tid) = (12, *first),
        Reply::Committed(answers) => (fields.kind, fields.answers) = (13, filled(&mut fields.answer, answers)),
        Reply::Aborted { cause, fell } => {
            fields.kind = 14;
            cause_fields(&mut fields, cause);
            fields.fallen = filled(&mut fields.fell, fell);
        }
        Reply::Refused { code, fell } => {
            (fields.kind, fields.code) = (15, *code);
            fields.fallen = filled(&mut fields.fell, fell);
        }
        Reply::Unrecognised(kind) => fields.kind = *kind,
    }
    fields
}

pub(crate) fn done(status: u32) -> Result<(), Error> {
    match status {
        c::OK => Ok(()),
        c::NO_MEMORY => Err(Error::NoMemory),
        c::BAD_CALL => Err(Error::BadCall),
        c::BEGUN => Err(Error::Begun),
        c::TOO_MANY => Err(Error::TooMany),
        c::BUSY => Err(Error::Busy),
        c::SELF_WAIT => Err(Error::SelfWait),
        c::TIMED_OUT => Err(Error::TimedOut),
        c::STALE => Err(Error::Stale),
        c::MISUSE => Err(Error::Misuse),
        status => Err(Error::Unrecognised(status)),
    }
}

pub(crate) fn reported(status: u32, reply: &c::Reply) -> Result<Reply, Error> {
    done(status).map(|()| reply_of(reply))
}

pub(crate) fn event_of(event: &c::Event) -> Event {
    match event.kind {
        1 => Event::Start { procedure: event.procedure as u16, args: event.arg[..event.args as usize].to_vec() },
        2 => Event::Step(event.tid),
        3 => Event::Commit(event.tid),
        4 => Event::Quit(event.tid),
        5 => Event::Read { tid: event.tid, table: event.table as u8, number: event.number },
        6 => Event::Write { tid: event.tid, table: event.table as u8, number: event.number, value: event.value },
        7 => Event::Remove { tid: event.tid, table: event.table as u8, number: event.number },
        kind => Event::Unrecognised(kind),
    }
}

/// A call for `sgt_run_many`. None if it has more than four arguments.
pub(crate) fn call_for((procedure, args): &(u16, Vec<i64>)) -> Option<c::Call> {
    let mut call = c::Call { procedure: u32::from(*procedure), args: args.len() as u32, ..c::Call::default() };
    call.arg.get_mut(..args.len())?.copy_from_slice(args);
    Some(call)
}

/// The outcome of a call: the number of its transaction, if one was started, and the last reply.
pub(crate) fn outcome_of(outcome: &c::Outcome) -> BatchOutcome {
    let reply = reply_of(&outcome.reply);
    let is_started = !matches!(reply, Reply::NoProcedure | Reply::BadArgs | Reply::Spent | Reply::Full);
    BatchOutcome { tid: is_started.then_some(outcome.tid), wrote: outcome.wrote == 1, reply }
}

pub(crate) fn call_of(call: &c::Call) -> Call {
    let answers = || call.answer[..call.answers as usize].to_vec();
    Call {
        tid: call.tid,
        procedure: call.procedure as u16,
        args: call.arg[..call.args as usize].to_vec(),
        reported: if call.kind == 13 { Ok(answers()) } else { Err(call.code) },
        accesses: call.accesses,
    }
}

/// The accesses that a call writes. It is called again until all fit.
pub(crate) fn accesses_of(write: impl Fn(*mut c::Access, usize, &mut u64) -> u32) -> Result<Vec<Access>, Error> {
    let (mut accesses, mut count) = (vec![c::Access::default(); 16], 0);
    loop {
        // The pointer is to as many structs as are said to be there.
        done(write(accesses.as_mut_ptr(), accesses.len(), &mut count))?;
        match accesses.get(..count as usize) {
            Some(all) => return Ok(all.iter().map(access_of).collect()),
            None => accesses.resize(count as usize, c::Access::default()),
        }
    }
}

fn access_of(access: &c::Access) -> Access {
    let kind = match access.kind {
        5 => AccessKind::Read,
        6 => AccessKind::Write,
        7 => AccessKind::Remove,
        kind => AccessKind::Unrecognised(kind),
    };
    let value = (access.found == 1).then_some(access.value);
    Access { kind, table: access.table as u8, number: access.number, value }
}

fn cause_of(reply: &c::Reply) -> Cause {
    match reply.cause {
        1 => Cause::Cycle(reply.walk[..reply.walked as usize].to_vec()),
        2 => Cause::Asked(reply.code),
        3 => Cause::Quit,
        cause => Cause::Unrecognised(cause),
    }
}

pub(crate) fn reply_of(reply: &c::Reply) -> Reply {
    let (table, number, value) = (reply.table as u8, reply.number, reply.value);
    let fell = || reply.fell[..reply.fallen as usize].to_vec();
    match reply.kind {
        1 => Reply::Started(reply.tid),
        2 => Reply::NoProcedure,
        3 => Reply::BadArgs,
        4 => Reply::Spent,
        5 => Reply::Full,
        6 => Reply::Unknown,
        7 => Reply::Over(match reply.cause {
            0 => Fate::Committed,
            4 => Fate::Fell(reply.tid),
            _ => Fate::Aborted(cause_of(reply)),
        }),
        8 => Reply::Looked { table, number, value: (reply.found == 1).then_some(value) },
        9 => Reply::Wrote { table, number, value: (reply.found == 1).then_some(value) },
        10 => Reply::Ended,
        11 => Reply::NotEnded,
        12 => Reply::Waits(reply.tid),
        13 => Reply::Committed(reply.answer[..reply.answers as usize].to_vec()),
        14 => Reply::Aborted { cause: cause_of(reply), fell: fell() },
        15 => Reply::Refused { code: reply.code, fell: fell() },
        kind => Reply::Unrecognised(kind),
    }
}
