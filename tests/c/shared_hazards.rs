//! What may go wrong around a shared engine in Rust: hooks that panic in each kind of call, aborts on the way out of a
//! body or by a drop, and a transaction that is dropped in a hook.
use sgt::{Configuration, Engine, Error, OwnTransaction, Reply, SharedEngine, TransactLimits, Transaction};
use std::panic::{catch_unwind, AssertUnwindSafe};
use std::sync::atomic::{AtomicBool, AtomicUsize, Ordering};
use std::sync::{Arc, Mutex};
use std::time::Duration;

const OPENING: &str = r#"{"limits":[4,1000,1],"accounts":[],"procedures":[[0,[["put",7,1,5]]],[0,[["put",7,2,6]]]]}"#;
const WRITE: u16 = 5;
const WRITE_OTHER: u16 = 6;

fn panics() -> Result<(), sgt::Error> {
    let with = Configuration {
        ended: Some(Box::new(|call| if call.sequence == 0 { panic!("full disk") })),
        ..Configuration::default()
    };
    let bank = SharedEngine::open_with(OPENING, &[], with)?;
    let why = catch_unwind(AssertUnwindSafe(|| bank.run(WRITE, &[]))).expect_err("it panics");
    assert_eq!(why.downcast_ref::<&str>(), Some(&"full disk"));
    assert_eq!(bank.get(7, 1)?, Some(5));
    assert!(bank.live()?.is_empty());
    let other = bank.clone();
    let outcome = std::thread::spawn(move || other.run(WRITE, &[])).join().expect("no panic")?;
    assert_eq!(outcome.reply, Reply::Committed(vec![]));
    Ok(())
}

fn drops() -> Result<(), sgt::Error> {
    let kept: Arc<Mutex<Option<Transaction>>> = Arc::default();
    let hooks = Arc::clone(&kept);
    let ended: Box<dyn FnMut(sgt::Ended) + Send> = Box::new(move |_| drop(hooks.lock().expect("no panic").take()));
    let bank = SharedEngine::open_with(OPENING, &[], Configuration { ended: Some(ended), ..Configuration::default() })?;
    let mut started = bank.start(WRITE, &[], None)?.expect("a transaction");
    started.step()?;
    *kept.lock().expect("no panic") = Some(started);
    bank.run(WRITE_OTHER, &[])?.reply.to_string();
    assert!(kept.lock().expect("no panic").is_none());
    assert!(bank.live()?.is_empty());
    bank.cut(Some(Duration::ZERO))
}

/// The hook of a cut reads what is cut off; if it panics there is no cut.
fn reads_before_a_cut() -> Result<(), sgt::Error> {
    type Read = Vec<(u64, u64, Option<i64>)>;
    let read: Arc<Mutex<Read>> = Arc::default();
    let reads = Arc::clone(&read);
    let mut fails = true;
    let cutting: Box<dyn FnMut(&Engine, u64) + Send> = Box::new(move |engine, part| {
        if std::mem::take(&mut fails) {
            panic!("full disk");
        }
        assert!(engine.entry(0).is_some() && engine.rows(7, 0).is_ok_and(|rows| rows.len() == 1));
        assert!(engine.has_written(0).is_ok_and(|wrote| wrote));
        reads.lock().expect("no panic").push((part, engine.entries(), engine.get(7, 1).expect("it is open")));
    });
    let bank = SharedEngine::open_with(OPENING, &[], Configuration { cutting: Some(cutting), ..Configuration::default() })?;
    bank.run(WRITE, &[])?.reply.to_string();
    let why = catch_unwind(AssertUnwindSafe(|| bank.cut(None))).expect_err("it panics");
    assert_eq!((why.downcast_ref::<&str>(), bank.entries()?), (Some(&"full disk"), 4));
    bank.cut(None)?;
    bank.run(WRITE, &[])?.reply.to_string();
    bank.cut(None)?;
    assert_eq!((bank.entries()?, &*read.lock().expect("no panic")), (0, &vec![(0, 4, Some(5)), (1, 4, Some(5))]));
    Ok(())
}

/// A hook before a cut that panics while the disk is full, and counts its calls; and a hook for calls that ended, which
/// does so too.
#[derive(Default)]
struct Disk {
    is_mended: AtomicBool,
    is_journal_full: AtomicBool,
    asked: AtomicUsize,
}

impl Disk {
    fn asked(&self) -> usize {
        self.asked.load(Ordering::Relaxed)
    }

    /// An engine whose history is cut off after four entries, and which stores calls.
    fn engine(self: &Arc<Disk>, cut_wait: Duration) -> Result<SharedEngine, Error> {
        let (of_cuts, of_calls) = (Arc::clone(self), Arc::clone(self));
        let with = Configuration {
            ended: Some(Box::new(move |_| {
                assert!(!of_calls.is_journal_full.load(Ordering::Relaxed), "full disk of the journal");
            })),
            cutting: Some(Box::new(move |_, _| {
                of_cuts.asked.fetch_add(1, Ordering::Relaxed);
                assert!(of_cuts.is_mended.load(Ordering::Relaxed), "full disk");
            })),
            keeps_ended: true,
            cut_after: 4,
            cut_wait,
        };
        SharedEngine::open_with(OPENING, &[], with)
    }
}

/// What a call panics with, or nothing.
fn panicked<R>(call: impl FnOnce() -> R) -> &'static str {
    match catch_unwind(AssertUnwindSafe(call)) {
        Ok(_) => "",
        Err(why) => why.downcast_ref::<&str>().copied().expect("a text"),
    }
}

fn makes_four_entries(t: &OwnTransaction) -> Result<(), Error> {
    (0..4).try_for_each(|value| t.write(7, 3, value))
}

/// A way to abort a transaction after which a cut is due, and what it panics with.
type Way = (fn(&SharedEngine), &'static str);

const WAYS: [Way; 6] = [
    (
        |bank| {
            let panics = || -> Result<(), Error> { panic!("the body") };
            assert_eq!(bank.transact(|t| makes_four_entries(t).and_then(|()| panics())), Ok(()));
        },
        "the body",
    ),
    (
        |bank| {
            let reported: Result<(), Error> = bank.transact(|t| makes_four_entries(t).and(Err(Error::TooMany)));
            assert_eq!(reported, Err(Error::TooMany));
        },
        "",
    ),
    (
        |bank| {
            let t = bank.begin(None).expect("it is started");
            makes_four_entries(&t).expect("it is live");
            panic!("beside a transaction");
        },
        "beside a transaction",
    ),
    (|bank| makes_four_entries(&bank.begin(None).expect("it is started")).expect("it is live"), ""),
    (
        |bank| {
            let t = bank.begin(None).expect("it is started");
            makes_four_entries(&t).expect("it is live");
            t.quit();
        },
        "",
    ),
    (
        |bank| {
            let mut t = bank.start(WRITE, &[], None).expect("it is started").expect("it is started");
            while t.step().expect("it is live") != Reply::Ended {}
        },
        "",
    ),
];

/// An abort on the way out calls no hook: the panic or the error goes on, and a later call makes the cut that is due.
fn aborts_quietly() -> Result<(), Error> {
    let disk: Arc<Disk> = Arc::default();
    let bank = disk.engine(Duration::ZERO)?;
    for (number, (way, why)) in WAYS.iter().enumerate() {
        assert_eq!((panicked(|| way(&bank)), disk.asked()), (*why, number));
        assert_eq!((panicked(|| bank.entries()), disk.asked()), ("full disk", number + 1));
        assert_eq!((bank.live()?.len(), disk.asked()), (0, number + 1));
    }
    disk.is_mended.store(true, Ordering::Relaxed);
    bank.cut(None)?;
    assert_eq!((bank.entries()?, bank.get(7, 3)?), (0, None));
    Ok(())
}

/// Each call is carried out, and what is stored of it is drained once, though one hook or the other panics in each.
fn drains_all() -> Result<(), Error> {
    let disk: Arc<Disk> = Arc::default();
    let (bank, mut drained) = (disk.engine(Duration::ZERO)?, Vec::new());
    for made in 0..16 {
        let is_journal_full = made % 4 > 1; // then no cut is made, though it is due
        disk.is_journal_full.store(is_journal_full, Ordering::Relaxed);
        let why = panicked(|| match made % 2 {
            0 => bank.run(WRITE, &[]).map(|_| ()),
            _ => bank.transact(makes_four_entries),
        });
        assert_eq!(why, if is_journal_full { "full disk of the journal" } else { "full disk" });
        let asked = disk.asked();
        if made % 3 == 2 {
            drained.extend(bank.drain(10, Some(Duration::ZERO))?);
        }
        assert_eq!(disk.asked(), asked);
    }
    drained.extend(bank.drain(10, Some(Duration::ZERO))?);
    assert!(drained.iter().map(|ended| ended.sequence).eq(0..16));
    Ok(())
}

/// Closes a cycle: the transaction is aborted, so that nobody is live any more, and a cut is due.
fn is_aborted_in_its_access(bank: &SharedEngine, t: &OwnTransaction) -> Result<(), Error> {
    let other = bank.begin(None)?;
    t.write(7, 3, 5)?;
    let read = other.read(7, 3)?;
    other.write(7, 4, read.unwrap_or(0) + 1)?;
    t.read(7, 4).map(|_| ())
}

/// A body may catch the panic of the hook before a cut in its access, and is run again if the access was aborted by a
/// cycle. Else its call panics, and nothing is committed.
fn passes_panics_on() -> Result<(), Error> {
    for is_caught in [true, false] {
        let disk: Arc<Disk> = Arc::default();
        let (bank, mut tries) = (disk.engine(Duration::ZERO)?, Vec::new());
        let mut body = |t: &OwnTransaction| {
            tries.push(t.tries());
            if t.tries() > 1 {
                return t.write(7, 5, 1);
            }
            if !is_caught {
                return is_aborted_in_its_access(&bank, t);
            }
            assert_eq!((panicked(|| is_aborted_in_its_access(&bank, t)), bank.live()?.len()), ("full disk", 0));
            disk.is_mended.store(true, Ordering::Relaxed);
            let why = t.write(7, 5, 9);
            assert!(matches!(why, Err(Error::Aborted { is_conflict: true, .. })));
            why
        };
        let why = panicked(|| bank.transact(&mut body).expect("it is committed"));
        assert_eq!((why, tries), if is_caught { ("", vec![1, 2]) } else { ("full disk", vec![1]) });
        assert_eq!((bank.live()?.len(), bank.get(7, 3)?, bank.get(7, 5)?), (0, None, is_caught.then_some(1)));
    }
    Ok(())
}

/// Ways to start a transaction.
const STARTS: [fn(&SharedEngine) -> Result<(), Error>; 3] = [
    |bank| bank.begin(None)?.commit(None),
    |bank| bank.run(WRITE, &[]).map(|_| ()),
    |bank| bank.transact_within(TransactLimits { wait: None, tries: 0 }, |t| t.write(7, 1, 5)),
];

/// Starts that wait for a cut make it, and its hook panics: nothing was started, and later starts do not wait.
fn starts_nothing() -> Result<(), Error> {
    for starts in STARTS {
        let disk: Arc<Disk> = Arc::default();
        let bank = disk.engine(Duration::from_secs(3600))?;
        let first = bank.begin(None)?;
        makes_four_entries(&first)?;
        let why = std::thread::scope(|scope| {
            let waiting = scope.spawn(|| panicked(|| starts(&bank)));
            std::thread::sleep(Duration::from_millis(50)); // so that it waits; if not, all is the same
            first.quit(); // without the cut: it is left to the start
            waiting.join().expect("its panic is caught")
        });
        assert_eq!((why, disk.asked(), bank.live()?.len(), bank.get(7, 1)?), ("full disk", 1, 0, None));
        disk.is_mended.store(true, Ordering::Relaxed);
        starts(&bank)?;
    }
    Ok(())
}

fn main() -> Result<(), sgt::Error> {
    std::panic::set_hook(Box::new(|_| {}));
    panics()?;
    drops()?;
    reads_before_a_cut()?;
    aborts_quietly()?;
    drains_all()?;
    passes_panics_on()?;
    starts_nothing()?;
    println!("all held");
    Ok(())
}
