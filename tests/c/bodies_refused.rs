//! Bodies that the compiler has to refuse: with `body="none"` all is well, and with each other text it says the error
//! beside that text.
#![allow(unused)]
use sgt::{Error, OwnTransaction, SharedEngine};

pub fn makes_a_call(bank: &SharedEngine, other: &SharedEngine) -> Result<(), Error> {
    let mut own = bank.begin(None)?;
    #[cfg(body = "none")]
    bank.transact(|t| t.write(0, 1, t.read(0, 1)?.unwrap_or(0)))?;
    #[cfg(body = "replaces")] // E0308
    bank.transact(|t| std::mem::replace(t, other.begin(None)?).commit(None))?;
    #[cfg(body = "swaps")] // E0308
    bank.transact(|t| Ok(std::mem::swap(t, &mut own)))?;
    #[cfg(body = "assigns")] // E0594
    bank.transact(|t| Ok(*t = other.begin(None)?))?;
    #[cfg(body = "moves")] // E0507
    bank.transact(|t| Ok(drop(*t)))?;
    #[cfg(body = "commits")] // E0507
    bank.transact(|t| t.commit(None))?;
    #[cfg(body = "copies")] // E0277
    bank.transact(|t| OwnTransaction::clone(t).commit(None))?;
    #[cfg(body = "awaits")] // E0308
    bank.transact(|t| async { t.write(0, 1, 1) })?;
    #[cfg(body = "returns a future")] // lifetime may not live long enough
    bank.transact(|t| Ok(async { t.write(0, 1, 1) }))?;
    #[cfg(body = "shares")] // E0277
    bank.transact(|t| std::thread::scope(|scope| scope.spawn(|| t.write(0, 1, 1)).join().expect("no panic")))?;
    own.commit(None)
}
