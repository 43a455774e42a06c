//! Eight threads pay each other on one shared engine, and the money is counted.
use sgt::{Configuration, Error, Limits, Reply, SharedEngine};
use std::sync::atomic::{AtomicU32, Ordering::Relaxed};
use std::sync::Arc;
use std::time::Duration;

const OPENING: &str = r#"{"limits":[8,4000000,1],"accounts":[[1,101,0,1000],[2,102,0,1000],[3,103,0,1000],[4,104,0,1000]],
"procedures":[[3,[["look",0,2,["arg",0],6],["if",["less",["reg",0],["arg",2]],[["ask",7]],[]],
["put",2,["arg",0],["diff",["reg",0],["arg",2]]],["look",1,2,["arg",1],6],["put",2,["arg",1],["sum",["reg",1],["arg",2]]]]]]}"#;

/// From a customer, to a customer, cents. It aborts with 7 if the money does not suffice.
const PAY: u16 = 5;
const THREADS: i64 = 8;
const EACH: i64 = 2000;

fn pay_each(bank: &SharedEngine, number: i64) -> Result<u32, Error> {
    let mut paid = 0;
    for made in 0..EACH {
        let outcome = bank.run(PAY, &[101 + (number + made) % 4, 101 + (number + made * 3 + 1) % 4, made % 500])?;
        match outcome.reply {
            Reply::Committed(_) => paid += 1,
            Reply::Refused { code: 7, .. } => {}
            other => panic!("{other}"),
        }
    }
    Ok(paid)
}

fn main() -> Result<(), Error> {
    let reported = Arc::new(AtomicU32::new(0));
    let counted = Arc::clone(&reported);
    let with = Configuration {
        ended: Some(Box::new(move |_| {
            counted.fetch_add(1, Relaxed);
        })),
        keeps_ended: true,
        cut_after: 10_000,
        ..Configuration::default()
    };
    let bank = SharedEngine::open_with(OPENING, &[], with)?;
    let threads: Vec<_> = (0..THREADS)
        .map(|number| {
            let bank = bank.clone();
            std::thread::spawn(move || pay_each(&bank, number))
        })
        .collect();
    let mut paid = 0;
    for thread in threads {
        paid += thread.join().expect("no thread panics")?;
    }
    let calls = bank.drain(100_000, Some(Duration::ZERO))?;
    assert_eq!((reported.load(Relaxed), calls.len()), (16_000, 16_000));
    assert_eq!(calls.iter().filter(|ended| ended.call.reported.is_ok()).count(), paid as usize);
    let money: i64 = bank.rows(2, sgt::LEAST)?.iter().map(|row| row.value).sum();

    let mut started = bank.start(PAY, &[101, 102, 0], None)?.expect("8 may be live"); // step by step
    assert!(matches!(started.step()?, Reply::Looked { .. }));
    assert_eq!(bank.live()?.len(), 1);
    assert_eq!(bank.cut(Some(Duration::from_millis(5))), Err(Error::TimedOut));
    drop(started); // which aborts it
    let limits = Limits { wait: Some(Duration::from_secs(1)), tries: 3 };
    let outcome = bank.run_within(PAY, &[101, 102, 0], limits)?;
    assert_eq!((outcome.tries, outcome.waits), (1, 0));
    bank.cut(None)?;
    println!("{money} of 4000, {} entries", bank.entries()?);
    Ok(())
}
