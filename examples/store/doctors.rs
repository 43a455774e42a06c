//! Doctors of four wards go on call and off call, move, come and leave. Somebody of each ward has to be on call.
//!
//! Under snapshot isolation two doctors may both see the other one on call, and both go off call: that is write skew. Here it cannot come.
mod store;

use sgt::{Configuration, Error, OwnTransaction, SharedEngine};
use std::sync::LazyLock;
use std::time::Duration;
use store::{Table, Texts};

const WARDS: [&str; 4] = ["north", "south", "east", "west"];
const THREADS: u64 = 8;
const EACH: u64 = 1000;

static TEXTS: LazyLock<Texts> = LazyLock::new(Texts::default);
static DOCTORS: Table = Table { place: 0, columns: 3, indexed: WARD };
const NAME: i64 = 0;
const WARD: i64 = 1;
const ON_CALL: i64 = 2;

fn comes(t: &OwnTransaction, name: &str, ward: &str, on_call: i64) -> Result<i64, Error> {
    DOCTORS.insert(t, &[TEXTS.number(name), TEXTS.number(ward), on_call])
}

/// Whether somebody else of the ward is on call.
fn is_covered(t: &OwnTransaction, ward: i64, without: i64) -> Result<bool, Error> {
    for row in DOCTORS.find(t, ward)? {
        if row != without && DOCTORS.get(t, row, ON_CALL)? == Some(1) {
            return Ok(true);
        }
    }
    Ok(false)
}

/// What a doctor does.
#[derive(Clone, Copy, PartialEq)]
enum Change<'a> {
    On,
    Off,
    Moves(&'a str),
    Leaves,
}

/// Lets a doctor do something. Returns "done", or why not: then nothing is written, and once this is committed the refusal is true.
fn changes(t: &OwnTransaction, row: i64, what: Change) -> Result<&'static str, Error> {
    let (Some(ward), Some(on_call)) = (DOCTORS.get(t, row, WARD)?, DOCTORS.get(t, row, ON_CALL)?) else {
        return Ok("has left");
    };
    if what != Change::On && on_call == 1 && !is_covered(t, ward, row)? {
        return Ok("nobody else is on call");
    }
    match what {
        Change::On => DOCTORS.set(t, row, ON_CALL, 1)?,
        Change::Off => DOCTORS.set(t, row, ON_CALL, 0)?,
        Change::Moves(ward) => DOCTORS.set(t, row, WARD, TEXTS.number(ward))?,
        Change::Leaves => DOCTORS.remove(t, row)?,
    }
    Ok("done")
}

/// A number below some, from a state.
fn drawn(state: &mut u64, below: u64) -> u64 {
    *state = state.wrapping_mul(6_364_136_223_846_793_005).wrapping_add(1_442_695_040_888_963_407);
    (*state >> 33) % below
}

fn works(bank: &SharedEngine, number: u64) -> Result<(), Error> {
    let mut state = number;
    for made in 0..EACH {
        let (ward, row) = (WARDS[drawn(&mut state, 4) as usize], 1 + drawn(&mut state, 60) as i64);
        let what = match drawn(&mut state, 6) {
            0 => Change::On,
            1 | 2 => Change::Off,
            3 => Change::Moves(ward),
            4 => Change::Leaves,
            _ => {
                bank.transact(|t| comes(t, &format!("{number}.{made}"), ward, made as i64 % 2))?;
                continue;
            }
        };
        bank.transact(|t| changes(t, row, what))?;
    }
    Ok(())
}

/// Both doctors of a ward read that the other one is on call, and both write that they go off. The second write is refused.
fn skews(bank: &SharedEngine) -> Result<&'static str, Error> {
    let (first, second) = (bank.transact(|t| comes(t, "Ada", "hill", 1))?, bank.transact(|t| comes(t, "Bo", "hill", 1))?);
    let (ada, bo) = (bank.begin(None)?, bank.begin(None)?);
    let hill = TEXTS.number("hill");
    assert!(is_covered(&ada, hill, first)? && is_covered(&bo, hill, second)?);
    DOCTORS.set(&ada, first, ON_CALL, 0)?;
    assert!(matches!(DOCTORS.set(&bo, second, ON_CALL, 0), Err(Error::Aborted { is_conflict: true, .. })));
    ada.commit(None)?;
    bank.transact(|t| changes(t, second, Change::Off)) // tried again
}

/// Compares the index with the rows, and looks for the wards.
fn judge(t: &OwnTransaction) -> Result<(), Error> {
    let rows = DOCTORS.all(t)?;
    for ward in WARDS.iter().chain(&["hill"]) {
        let number = TEXTS.number(ward);
        let its: Vec<i64> = rows.iter().filter(|row| row.1 == number).map(|row| row.0).collect();
        let mut found = DOCTORS.find(t, number)?;
        found.sort();
        assert_eq!(its, found, "{ward}");
        assert!(is_covered(t, number, 0)?, "{ward}");
    }
    if let Some(name) = DOCTORS.get(t, 1, NAME)? { // unless that doctor has left
        assert!(TEXTS.text(name).starts_with("first of"));
    }
    Ok(())
}

fn main() -> Result<(), Error> {
    let opening = r#"{"limits":[16,4000000000,1],"accounts":[],"procedures":[]}"#;
    let with = Configuration { cut_after: 100_000, cut_wait: Duration::from_millis(10), ..Configuration::default() };
    let bank = SharedEngine::open_with(opening, &[], with)?;
    for ward in WARDS {
        bank.transact(|t| comes(t, &format!("first of {ward}"), ward, 1))?;
    }
    std::thread::scope(|scope| {
        let threads: Vec<_> = (0..THREADS).map(|number| scope.spawn({ let bank = &bank; move || works(bank, number) })).collect();
        threads.into_iter().try_for_each(|thread| thread.join().expect("no thread panics"))
    })?;
    println!("Bo, off call after Ada: {}", skews(&bank)?);
    bank.transact(judge)?;
    println!("somebody is on call in each of 5 wards, and the index has all rows");
    Ok(())
}
