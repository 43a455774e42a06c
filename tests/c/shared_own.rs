//! Transactions whose caller decides the accesses, in Rust: functions that commit, fail and panic, transactions that are dropped, errors,
//! single calls, and threads on three records.
use sgt::{Access, AccessKind, Cause, Configuration, Engine, Error, Event, Fate, Reply, Row, SharedEngine, Ticket, TransactLimits};
use std::collections::HashMap;
use std::panic::{catch_unwind, AssertUnwindSafe};
use std::sync::{Arc, Mutex};
use std::time::Duration;

const OPENING: &str = r#"{"limits":[4,100000,1],"accounts":[],"procedures":[]}"#;
const TABLE: u8 = 2;
const RECORDS: [i64; 3] = [101, 102, 103];

/// An engine with the values 10, 20, 30 in three records.
fn opened(with: Configuration) -> Result<SharedEngine, Error> {
    let rows = RECORDS.map(|number| Row { table: TABLE, number, value: (number - 100) * 10 });
    SharedEngine::open_with(OPENING, &rows, with)
}

fn values(bank: &SharedEngine) -> Result<Vec<(i64, i64)>, Error> {
    Ok(bank.rows(TABLE, sgt::LEAST)?.iter().map(|row| (row.number, row.value)).collect())
}

fn commits() -> Result<(), Error> {
    let bank = opened(Configuration::default())?;
    let ticket = bank.transact(|t| {
        assert_eq!((t.read(TABLE, 101)?, t.read(TABLE, 109)?, t.tries()), (Some(10), None, 1));
        t.write(TABLE, 101, 11)?;
        t.remove(TABLE, 102)?;
        assert_eq!((t.read(TABLE, 101)?, t.read(TABLE, 102)?), (Some(11), None));
        Ok(t.ticket())
    })?;
    assert_eq!(values(&bank)?, [(101, 11), (103, 30)]);
    let accesses = bank.accesses(ticket)?;
    assert_eq!(accesses.len(), 6);
    assert_eq!(accesses[2], Access { kind: AccessKind::Write, table: TABLE, number: 101, value: Some(11) });
    assert_eq!(accesses[3], Access { kind: AccessKind::Remove, table: TABLE, number: 102, value: None });
    let t = bank.begin(None)?;
    t.write(TABLE, 104, 40)?;
    t.commit(None)?;
    let dropped = bank.begin(None)?;
    dropped.write(TABLE, 104, 41)?;
    drop(dropped);
    assert_eq!((bank.get(TABLE, 104)?, bank.live()?.len()), (Some(40), 0));
    bank.cut(Some(Duration::ZERO))?;
    assert_eq!(bank.accesses(ticket), Err(Error::Stale));
    Ok(())
}

/// An error of one's own.
#[derive(Debug, PartialEq)]
enum Why {
    TooLittle(i64),
    Engine(Error),
}

impl From<Error> for Why {
    fn from(error: Error) -> Why {
        Why::Engine(error)
    }
}

fn quits() -> Result<(), Error> {
    let bank = opened(Configuration::default())?;
    let reported: Result<(), Why> = bank.transact_within(TransactLimits::default(), |t| {
        t.write(TABLE, 102, 0)?;
        match t.read(TABLE, 101)? {
            Some(value) if value >= 50 => Ok(()),
            value => Err(Why::TooLittle(value.unwrap_or(0))),
        }
    });
    assert_eq!(reported, Err(Why::TooLittle(10)));
    let reported: Result<(), Why> = bank.transact_within(TransactLimits::default(), |t| Ok(t.write(8, 102, 0)?));
    assert_eq!(reported, Err(Why::Engine(Error::BadCall)));
    assert_eq!(bank.transact(|t| t.write(TABLE, 102, sgt::MOST + 1).or(Ok(()))), Err(Error::BadCall));
    let panicked = catch_unwind(AssertUnwindSafe(|| {
        bank.transact(|t| {
            t.write(TABLE, 101, 99)?;
            panic!("full disk");
            #[allow(unreachable_code)]
            Ok(())
        })
    }));
    assert_eq!(panicked.expect_err("it panics").downcast_ref::<&str>(), Some(&"full disk"));
    assert_eq!((values(&bank)?, bank.live()?.len()), (vec![(101, 10), (102, 20), (103, 30)], 0));
    Ok(())
}

fn says_why() -> Result<(), Error> {
    let bank = opened(Configuration::default())?;
    let (writer, reader, other) = (bank.begin(None)?, bank.begin(None)?, bank.begin(None)?);
    writer.write(TABLE, 101, 11)?;
    assert_eq!(reader.read(TABLE, 101)?, Some(11));
    assert_eq!(reader.commit(None), Err(Error::SelfWait));
    assert_eq!(other.read(TABLE, 101)?, Some(11));
    let first = writer.ticket();
    writer.quit();
    let fell = Error::Aborted { reply: Reply::Over(Fate::Fell(first.tid)), is_conflict: true };
    assert_eq!(other.read(TABLE, 101), Err(fell.clone()));
    assert_eq!(other.write(TABLE, 101, 1), Err(fell.clone()));
    assert_eq!(other.commit(None), Err(fell));
    let writer = bank.begin(None)?;
    writer.write(TABLE, 101, 11)?;
    let reported = bank.transact_within(TransactLimits { wait: Some(Duration::from_millis(5)), ..TransactLimits::default() }, |t| {
        t.read(TABLE, 101)
    });
    assert_eq!(reported, Err(Error::TimedOut));
    let for_ever = TransactLimits { wait: Some(Duration::MAX), ..TransactLimits::default() };
    assert_eq!(bank.transact_within(for_ever, |t| t.read(TABLE, 101)), Err(Error::SelfWait));
    assert_eq!(bank.live()?.len(), 1);
    bank.quit(writer.ticket())?;
    let quit = Error::Aborted { reply: Reply::Over(Fate::Aborted(Cause::Quit)), is_conflict: false };
    assert_eq!(writer.commit(None), Err(quit));
    let few = SharedEngine::open(r#"{"limits":[1,1,1],"accounts":[],"procedures":[]}"#)?;
    few.transact(|t| t.write(0, 1, 1))?;
    assert_eq!(few.transact(|_| Ok(())), Err(Error::NotStarted(Reply::Spent)));
    Ok(())
}

fn tries_again() -> Result<(), Error> {
    let bank = opened(Configuration::default())?;
    for fails in [false, true] {
        let mut tries = Vec::new();
        let value = bank.transact(|t| {
            tries.push(t.tries());
            let mut other = None;
            if tries.len() < 4 {
                let writer = bank.begin(None)?;
                writer.write(TABLE, 101, 99)?;
                other = Some(writer);
            }
            let value = t.read(TABLE, 101)?;
            let is_undone = other.is_some();
            drop(other);
            if is_undone && fails {
                return Err(Error::BadCall); // of a value that is undone
            }
            t.write(TABLE, 102, value.unwrap_or(0))?;
            Ok(value)
        })?;
        assert_eq!((value, tries), (Some(10), vec![1, 2, 3, 4]));
    }
    let mut tries = 0;
    bank.transact_within(TransactLimits { tries: 2, wait: None }, |t| -> Result<(), Error> {
        tries += 1;
        t.write(TABLE, 101, tries)?;
        match bank.begin(Some(Duration::ZERO)) {
            Ok(other) => {
                other.write(TABLE, 102, 1)?;
                other.read(TABLE, 101)?;
                t.read(TABLE, 102).map(|_| ())
            }
            Err(why) => {
                assert_eq!((why, tries), (Error::TimedOut, 3)); // the third try is alone
                Ok(())
            }
        }
    })?;
    assert_eq!((tries, bank.live()?.len()), (3, 0));
    Ok(())
}

fn answers_single_calls() -> Result<(), Error> {
    let mut engine = Engine::open_with(OPENING, &[Row { table: TABLE, number: 101, value: 10 }])?;
    assert_eq!(engine.begin()?, Reply::Started(0));
    assert_eq!(engine.read(0, TABLE, 101)?, Reply::Looked { table: TABLE, number: 101, value: Some(10) });
    assert_eq!(engine.write(0, TABLE, 102, 5)?, Reply::Wrote { table: TABLE, number: 102, value: Some(5) });
    assert_eq!(engine.remove(0, TABLE, 101)?, Reply::Wrote { table: TABLE, number: 101, value: None });
    assert_eq!((engine.write(0, TABLE, 101, sgt::MOST + 1)?, engine.read(0, 8, 1)), (Reply::BadArgs, Err(Error::BadCall)));
    assert_eq!((engine.accesses(0)?.len(), engine.commit(0)?), (3, Reply::Committed(vec![])));
    assert_eq!(engine.entry(2).map(|entry| entry.0), Some(Event::Write { tid: 0, table: TABLE, number: 102, value: 5 }));
    assert_eq!(engine.entry(3).map(|entry| entry.0), Some(Event::Remove { tid: 0, table: TABLE, number: 101 }));
    assert_eq!(engine.calls(0, 8)?.map(|(calls, _)| (calls[0].procedure, calls[0].accesses)), Some((sgt::EMPTY_PROCEDURE, 3)));
    assert_eq!(engine.rows(0, sgt::LEAST)?, [Row { table: TABLE, number: 102, value: 5 }]);
    Ok(())
}

/// A number below some, from a state.
fn drawn(state: &mut u64, below: u64) -> u64 {
    *state = state.wrapping_mul(6_364_136_223_846_793_005).wrapping_add(1_442_695_040_888_963_407);
    (*state >> 33) % below
}

type Done = HashMap<Ticket, Vec<Access>>;

/// Reads and writes some of the records, many times. What was committed did.
fn works(bank: &SharedEngine, mut state: u64) -> Result<Done, Error> {
    let mut done = Done::new();
    for _ in 0..500 {
        let (ticket, noted) = bank.transact(|t| {
            let (mut noted, mut sum) = (Vec::new(), 1);
            for _ in 0..2 + drawn(&mut state, 4) {
                let (number, draw) = (RECORDS[drawn(&mut state, 3) as usize], drawn(&mut state, 8));
                let (kind, value) = match draw {
                    0..=3 => (AccessKind::Read, t.read(TABLE, number)?),
                    4..=6 => (AccessKind::Write, Some(sum * 3 % 1_000_003)),
                    _ => (AccessKind::Remove, None),
                };
                match (kind, value) {
                    (AccessKind::Read, value) => sum += value.unwrap_or(0),
                    (_, Some(value)) => t.write(TABLE, number, value)?,
                    (_, None) => t.remove(TABLE, number)?,
                }
                noted.push(Access { kind, table: TABLE, number, value });
                std::thread::yield_now();
            }
            Ok((t.ticket(), noted))
        })?;
        done.insert(ticket, noted);
    }
    Ok(done)
}

/// Threads on three records. In the order of the hook's calls, each reads what a plain map has.
fn shares() -> Result<(), Error> {
    let order: Arc<Mutex<Vec<Ticket>>> = Arc::default();
    let reported = Arc::clone(&order);
    let ended: Box<dyn FnMut(sgt::Ended) + Send> = Box::new(move |ended| reported.lock().expect("no panic").push(ended.ticket));
    let bank = opened(Configuration { ended: Some(ended), cut_after: 2000, ..Configuration::default() })?;
    let threads: Vec<_> = (0..16)
        .map(|number| {
            let bank = bank.clone();
            std::thread::spawn(move || works(&bank, number))
        })
        .collect();
    let mut done = Done::new();
    for thread in threads {
        done.extend(thread.join().expect("no panic")?);
    }
    let order = std::mem::take(&mut *order.lock().expect("no panic"));
    assert_eq!((order.len(), done.len()), (8000, 8000));
    let mut map: HashMap<i64, i64> = RECORDS.iter().map(|number| (*number, (number - 100) * 10)).collect();
    for access in order.iter().flat_map(|ticket| &done[ticket]) {
        match (access.kind, access.value) {
            (AccessKind::Read, value) => assert_eq!(map.get(&access.number).copied(), value),
            (_, Some(value)) => _ = map.insert(access.number, value),
            (_, None) => _ = map.remove(&access.number),
        }
    }
    assert_eq!(values(&bank)?.into_iter().collect::<HashMap<_, _>>(), map);
    Ok(())
}

/// A shared engine is made of a prepared one, and a commit that times out says for whom it waited.
fn takes_over() -> Result<(), Error> {
    let mut engine = Engine::open_bare(2, 100, true)?;
    engine.put(&[Row { table: TABLE, number: 101, value: 10 }])?;
    assert_eq!((engine.procedure(r#"[0,[["put",2,101,11]]]"#)?, engine.procedure(r#"[0,[["look",0,2,101,6]]]"#)?), (0, 1));
    assert_eq!(engine.limits()?, [2, 100, 1]);
    let bank = SharedEngine::take(engine, Configuration::default())?;
    assert_eq!(bank.limits()?, [2, 100, 1]);
    let mut writer = bank.start(0, &[], None)?.expect("it is started");
    let mut reader = bank.start(1, &[], None)?.expect("it is started");
    assert!(matches!((writer.step()?, reader.step()?), (Reply::Wrote { .. }, Reply::Looked { .. })));
    assert_eq!((reader.step()?, reader.waits_for()), (Reply::Ended, None));
    assert_eq!(reader.commit(Some(Duration::from_millis(1))), Err(Error::TimedOut));
    assert_eq!(reader.waits_for(), Some(writer.ticket().tid));
    assert_eq!(writer.step()?, Reply::Ended);
    assert!(matches!((writer.commit(None)?, reader.commit(None)?), (Reply::Committed(_), Reply::Committed(_))));
    assert_eq!((reader.waits_for(), bank.run(0, &[])?.sequence, bank.run(9, &[])?.sequence), (None, Some(2), None));
    let mut begun = Engine::open(OPENING)?;
    begun.begin()?;
    assert_eq!(begun.live()?, [0]);
    assert_eq!(SharedEngine::take(begun, Configuration::default()).err(), Some(Error::Begun));
    Ok(())
}

fn main() -> Result<(), Error> {
    std::panic::set_hook(Box::new(|_| {})); // the panic here is meant
    commits()?;
    quits()?;
    let _ = std::panic::take_hook();
    says_why()?;
    tries_again()?;
    answers_single_calls()?;
    takes_over()?;
    shares()?;
    println!("all held");
    Ok(())
}
