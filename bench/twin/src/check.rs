//! The line of `check`.

use crate::carrier::Volume;
use crate::charset::PAGE_850;
use crate::read::read;
use crate::rows::{AccountRow, Counts, MovementRow, Notice, Tables, TextRow};

/// The rows of each table.
pub const ROWS: usize = 800;

/// The most bytes that are read.
pub const MOST_BYTES: usize = 65_536;

/// Reads lines in page 850, and tells in one line what it comes to.
#[must_use]
pub fn check(input: &[u8]) -> String {
    if input.len() > MOST_BYTES {
        return line(Notice::of_tables(35, 0, 0), Counts::default());
    }
    let mut accounts = vec![AccountRow::default(); ROWS];
    let mut movements = vec![MovementRow::default(); ROWS];
    let mut texts = vec![TextRow::default(); ROWS];
    let mut tables = Tables::new(&mut accounts, &mut movements, &mut texts);
    let answer = read(&mut Volume::lines(input, &PAGE_850), &mut tables);
    line(answer.err().unwrap_or_default(), tables.counts())
}

fn line(notice: Notice, counts: Counts) -> String {
    let Notice { layer, number, record, place, .. } = notice;
    let Counts { accounts, movements, .. } = counts;
    format!("{layer:2}{number:3}{record:8}{place:8}{accounts:7}{movements:7}\n")
}
