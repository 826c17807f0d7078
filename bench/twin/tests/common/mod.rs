//! What the tests share.
#![allow(dead_code)]

pub mod generator;

use std::path::PathBuf;
use twin::carrier::{Carrier, Framing, Image, Volume};
use twin::charset::{CodeTable, PAGE_284, PAGE_850};
use twin::rows::{AccountRow, Counts, MovementRow, Notice, Statement, Tables, TextRow};

/// The ways that volumes are written.
pub const WAYS: [(Framing, &CodeTable); 4] = [
    (Framing::Lines, &PAGE_850),
    (Framing::Lines, &PAGE_284),
    (Framing::Blocks, &PAGE_850),
    (Framing::Blocks, &PAGE_284),
];

/// The bytes of a data file of a crate.
pub fn data(name: &str) -> Vec<u8> {
    let path = PathBuf::from(env!("CARGO_MANIFEST_DIR")).join("../../crates").join(name);
    std::fs::read(&path).unwrap_or_else(|error| panic!("{}: {error}", path.display()))
}

/// Rows that own their memory.
#[derive(Clone, Debug, Default, PartialEq, Eq)]
pub struct Rows {
    pub accounts: Vec<AccountRow>,
    pub movements: Vec<MovementRow>,
    pub texts: Vec<TextRow>,
}

impl Rows {
    pub fn statement(&self) -> Statement<'_> {
        Statement { accounts: &self.accounts, movements: &self.movements, texts: &self.texts }
    }

    fn of(statement: Statement<'_>) -> Self {
        Self {
            accounts: statement.accounts.to_vec(),
            movements: statement.movements.to_vec(),
            texts: statement.texts.to_vec(),
        }
    }
}

/// Reads into tables with this many rows each.
pub fn read_into(carrier: &mut impl Carrier, rows: Counts) -> (Result<Counts, Notice>, Rows) {
    let mut accounts = vec![AccountRow::default(); rows.accounts];
    let mut movements = vec![MovementRow::default(); rows.movements];
    let mut texts = vec![TextRow::default(); rows.texts];
    let mut tables = Tables::new(&mut accounts, &mut movements, &mut texts);
    let answer = twin::read(carrier, &mut tables);
    let counts = tables.counts();
    assert!(answer.is_err() || answer == Ok(counts));
    (answer, Rows::of(tables.statement()))
}

/// Reads into tables that are large enough.
pub fn read(carrier: &mut impl Carrier) -> (Result<Counts, Notice>, Rows) {
    read_into(carrier, Counts { accounts: 900, movements: 900, texts: 900 })
}

/// Reads lines in page 850.
pub fn read_lines(bytes: &[u8]) -> (Result<Counts, Notice>, Rows) {
    read(&mut Volume::lines(bytes, &PAGE_850))
}

/// Writes to an image with exactly the room for what is put.
pub fn written(
    statement: Statement<'_>,
    framing: Framing,
    table: &CodeTable,
) -> Result<Vec<u8>, Notice> {
    let records = twin::check_tables(&statement)?;
    let mut bytes = vec![0; records as usize * framing.stride()];
    let mut image = Image::new(&mut bytes, table, framing);
    assert_eq!(twin::write(&statement, &mut image), Ok(records));
    assert_eq!((image.places(), image.written()), (0, records as usize * framing.stride()));
    Ok(bytes)
}

/// Lines in page 850 written in another way, byte by byte.
pub fn translated(lines: &[u8], framing: Framing, table: &CodeTable) -> Vec<u8> {
    let mut bytes = Vec::new();
    for line in lines.chunks(82) {
        bytes.extend(line[..80].iter().map(|&byte| table.encode(byte).expect("a character")));
        if framing == Framing::Lines {
            bytes.extend([13, 10]);
        }
    }
    bytes
}
