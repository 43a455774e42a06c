//! Tables with columns of numbers and texts, and with an index, kept in the records of an engine.
//!
//! The engine knows records alone: a number has a value, which is a number too. All else here are ordinary reads and writes of a
//! transaction `t`, so rows and index change together or not at all, and are those of one serial order.
use sgt::{Error, OwnTransaction};
use std::collections::HashMap;
use std::sync::Mutex;

/// Gives each text a number, which records hold in its place.
///
/// This table is not the engine's, and no abort undoes it. That is right, since a text is only ever added: its number means the same
/// before and after an abort, and whoever adds it again gets the same number. At most there is a text that no record names.
#[derive(Default)]
pub struct Texts(Mutex<(HashMap<String, i64>, Vec<String>)>);

impl Texts {
    pub fn number(&self, text: &str) -> i64 {
        let mut guard = self.0.lock().expect("no thread panics here");
        let (numbers, texts) = &mut *guard;
        *numbers.entry(text.to_string()).or_insert_with(|| {
            texts.push(text.to_string());
            texts.len() as i64 - 1
        })
    }

    pub fn text(&self, number: i64) -> String {
        self.0.lock().expect("no thread panics here").1[number as usize].clone()
    }
}

/// Rows of `columns` numbers, numbered from 1. Column c of row r is record r * columns + c of the engine's table `place`; its record 0 has
/// the last number that was given.
///
/// The index is a list of rows for each value of one column, linked both ways, in the engine's table `place` + 1: record 3 * value is the
/// first row, and records 3 * row + 1 and 3 * row + 2 are those after and before a row. Whoever looks for a value reads its first row,
/// and whoever adds a row writes it, so that both conflict: no row appears unseen.
pub struct Table {
    pub place: u8,
    pub columns: i64,
    pub indexed: i64,
}

impl Table {
    /// Adds a row with all its columns, and returns its number.
    pub fn insert(&self, t: &OwnTransaction, values: &[i64]) -> Result<i64, Error> {
        let row = t.read(self.place, 0)?.unwrap_or(0) + 1;
        t.write(self.place, 0, row)?;
        for (column, value) in (0..).zip(values) {
            t.write(self.place, row * self.columns + column, *value)?;
        }
        self.link(t, row)?;
        Ok(row)
    }

    /// Returns a column of a row, or none if there is no such row.
    pub fn get(&self, t: &OwnTransaction, row: i64, column: i64) -> Result<Option<i64>, Error> {
        t.read(self.place, row * self.columns + column)
    }

    /// Changes a column of a row.
    pub fn set(&self, t: &OwnTransaction, row: i64, column: i64, value: i64) -> Result<(), Error> {
        if column == self.indexed {
            self.unlink(t, row)?;
        }
        t.write(self.place, row * self.columns + column, value)?;
        if column == self.indexed {
            self.link(t, row)?;
        }
        Ok(())
    }

    pub fn remove(&self, t: &OwnTransaction, row: i64) -> Result<(), Error> {
        self.unlink(t, row)?;
        (0..self.columns).try_for_each(|column| t.remove(self.place, row * self.columns + column))
    }

    /// Returns the rows whose indexed column has this value.
    pub fn find(&self, t: &OwnTransaction, value: i64) -> Result<Vec<i64>, Error> {
        let mut rows = Vec::new();
        let mut next = t.read(self.place + 1, 3 * value)?;
        while let Some(row) = next {
            rows.push(row);
            next = t.read(self.place + 1, 3 * row + 1)?;
        }
        Ok(rows)
    }

    /// Returns all rows with their indexed column, without the index.
    pub fn all(&self, t: &OwnTransaction) -> Result<Vec<(i64, i64)>, Error> {
        let mut rows = Vec::new();
        for row in 1..=t.read(self.place, 0)?.unwrap_or(0) {
            rows.extend(self.get(t, row, self.indexed)?.map(|value| (row, value)));
        }
        Ok(rows)
    }

    /// Has a record of the index name this row, or none.
    fn point(&self, t: &OwnTransaction, record: i64, row: Option<i64>) -> Result<(), Error> {
        match row {
            Some(row) => t.write(self.place + 1, record, row),
            None => t.remove(self.place + 1, record),
        }
    }

    /// The record of the index that has the first row of this one's list.
    fn first(&self, t: &OwnTransaction, row: i64) -> Result<i64, Error> {
        Ok(3 * self.get(t, row, self.indexed)?.unwrap_or(0))
    }

    fn link(&self, t: &OwnTransaction, row: i64) -> Result<(), Error> {
        let first = self.first(t, row)?;
        let after = t.read(self.place + 1, first)?;
        self.point(t, first, Some(row))?;
        self.point(t, 3 * row + 1, after)?;
        match after {
            Some(after) => self.point(t, 3 * after + 2, Some(row)),
            None => Ok(()),
        }
    }

    fn unlink(&self, t: &OwnTransaction, row: i64) -> Result<(), Error> {
        let (after, before) = (t.read(self.place + 1, 3 * row + 1)?, t.read(self.place + 1, 3 * row + 2)?);
        let from = match before {
            Some(before) => 3 * before + 1,
            None => self.first(t, row)?,
        };
        self.point(t, from, after)?;
        if let Some(after) = after {
            self.point(t, 3 * after + 2, before)?;
        }
        self.point(t, 3 * row + 1, None)?;
        self.point(t, 3 * row + 2, None)
    }
}
