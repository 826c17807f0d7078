//! Reading a holding into tables.

use crate::carrier::{Carrier, Drawn, Ending};
use crate::charset::Record;
use crate::reading::{Entry, Reading};
use crate::rows::{Counts, Notice, Tables};

/// Draws records until the carrier ends, and enters each in the tables.
///
/// # Errors
/// The first thing that is wrong. The tables hold the records before it; other rows are as they
/// were, and nothing is drawn after it.
pub fn read<C: Carrier>(carrier: &mut C, tables: &mut Tables<'_>) -> Result<Counts, Notice> {
    tables.clear();
    let mut reading = Reading::new();
    let mut record = Record::blank();
    loop {
        match carrier.draw(&mut record) {
            Drawn::Record => {
                let entry = reading.offer_record(&record)?;
                enter(&entry, tables)
                    .map_err(|table| Notice::of_tables(31, reading.taken(), table))?;
            }
            Drawn::Ended(Ending::Clean) => {
                reading.close()?;
                return Ok(tables.counts());
            }
            Drawn::Ended(Ending::Broken(fault)) => {
                return Err(Notice::of_fault(fault, reading.taken() + 1));
            }
        }
    }
}

/// Enters what was taken; fails with the number of the table that has no free row.
#[inline]
fn enter(entry: &Entry<'_>, tables: &mut Tables<'_>) -> Result<(), u64> {
    match entry {
        Entry::Account(account) => free(tables.accounts.push(account), 1),
        Entry::Movement(movement) => {
            free(tables.movements.push(movement), 2)?;
            change(tables.accounts.last_mut(), |row| row.movements += 1);
            Ok(())
        }
        Entry::Text(text) => {
            free(tables.texts.push(text), 3)?;
            change(tables.movements.last_mut(), |row| row.texts += 1);
            Ok(())
        }
        Entry::Equivalent(equivalent) => {
            change(tables.movements.last_mut(), |row| row.equivalent = Some(*equivalent));
            Ok(())
        }
        Entry::AccountEnd(end) => {
            change(tables.accounts.last_mut(), |row| row.final_key = Some(end.final_key));
            Ok(())
        }
        Entry::FileEnd(_) => Ok(()),
    }
}

#[inline]
const fn free(pushed: bool, table: u64) -> Result<(), u64> {
    if pushed { Ok(()) } else { Err(table) }
}

/// The order of records provides the row that is changed.
#[inline]
fn change<T>(row: Option<&mut T>, edit: impl FnOnce(&mut T)) {
    if let Some(row) = row {
        edit(row);
    }
}
