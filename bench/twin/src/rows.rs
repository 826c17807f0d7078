//! The rows of a statement, the tables that hold them, and what refusals tell.

use crate::carrier::Fault;
use crate::fields::{Key, Modality};
use crate::reading::Refusal;
use crate::records::{Account, Equivalent, Movement, Text};

/// An account. Its numbers may be too wide for their fields.
#[derive(Clone, Debug, PartialEq, Eq)]
#[allow(missing_docs)]
pub struct AccountRow {
    pub entity: u32,
    pub office: u32,
    pub account: u64,
    pub first_date: u32,
    pub last_date: u32,
    pub initial_key: Key,
    pub initial_balance: u64,
    pub currency: u32,
    pub modality: Modality,
    pub name: [u8; 26],
    /// How many of the next movements are its own.
    pub movements: u32,
    /// Absent until the account end is taken.
    pub final_key: Option<Key>,
}

/// A movement. Its numbers may be too wide for their fields.
#[derive(Clone, Debug, PartialEq, Eq)]
#[allow(missing_docs)]
pub struct MovementRow {
    pub origin_office: Option<u32>,
    pub operation_date: u32,
    pub value_date: u32,
    pub common_concept: u32,
    pub own_concept: u32,
    pub key: Key,
    pub amount: u64,
    pub document: u64,
    pub reference_1: Option<u64>,
    pub reference_2: [u8; 16],
    /// How many of the next texts are its own.
    pub texts: u32,
    pub equivalent: Option<Equivalent>,
}

/// A text.
#[derive(Clone, Debug, PartialEq, Eq)]
#[allow(missing_docs)]
pub struct TextRow {
    pub first: [u8; 38],
    pub second: [u8; 38],
}

/// Rows to lend before they are filled.
impl Default for AccountRow {
    fn default() -> Self {
        Self {
            entity: 0,
            office: 0,
            account: 0,
            first_date: 0,
            last_date: 0,
            initial_key: Key::Credit,
            initial_balance: 0,
            currency: 0,
            modality: Modality::One,
            name: [b' '; 26],
            movements: 0,
            final_key: None,
        }
    }
}

impl Default for MovementRow {
    fn default() -> Self {
        Self {
            origin_office: None,
            operation_date: 0,
            value_date: 0,
            common_concept: 0,
            own_concept: 0,
            key: Key::Credit,
            amount: 0,
            document: 0,
            reference_1: None,
            reference_2: [b' '; 16],
            texts: 0,
            equivalent: None,
        }
    }
}

impl Default for TextRow {
    fn default() -> Self {
        Self { first: [b' '; 38], second: [b' '; 38] }
    }
}

impl From<&Account<'_>> for AccountRow {
    #[inline]
    fn from(account: &Account<'_>) -> Self {
        Self {
            entity: account.entity,
            office: account.office,
            account: account.account,
            first_date: account.first_date,
            last_date: account.last_date,
            initial_key: account.initial_key,
            initial_balance: account.initial_balance,
            currency: account.currency,
            modality: account.modality,
            name: *account.name,
            movements: 0,
            final_key: None,
        }
    }
}

impl From<&Movement<'_>> for MovementRow {
    #[inline]
    fn from(movement: &Movement<'_>) -> Self {
        Self {
            origin_office: movement.origin_office,
            operation_date: movement.operation_date,
            value_date: movement.value_date,
            common_concept: movement.common_concept,
            own_concept: movement.own_concept,
            key: movement.key,
            amount: movement.amount,
            document: movement.document,
            reference_1: movement.reference_1,
            reference_2: *movement.reference_2,
            texts: 0,
            equivalent: None,
        }
    }
}

impl From<&Text<'_>> for TextRow {
    #[inline]
    fn from(text: &Text<'_>) -> Self {
        Self { first: *text.first, second: *text.second }
    }
}

/// Rows that are lent, filled from the front.
pub struct Table<'a, T> {
    lent: &'a mut [T],
    filled: usize,
}

impl<'a, T> Table<'a, T> {
    /// A table with no row filled.
    #[must_use]
    pub const fn new(lent: &'a mut [T]) -> Self {
        Self { lent, filled: 0 }
    }

    /// Forgets the filled rows.
    pub const fn clear(&mut self) {
        self.filled = 0;
    }

    /// Fills the next row, unless none is free.
    #[inline]
    #[must_use]
    pub fn push(&mut self, row: impl Into<T>) -> bool {
        let Some(free) = self.lent.get_mut(self.filled) else {
            return false;
        };
        *free = row.into();
        self.filled += 1;
        true
    }

    /// The last filled row.
    #[inline]
    #[must_use]
    pub fn last_mut(&mut self) -> Option<&mut T> {
        self.lent[..self.filled].last_mut()
    }

    /// The filled rows.
    #[must_use]
    pub fn rows(&self) -> &[T] {
        &self.lent[..self.filled]
    }
}

/// How many rows of each table are filled.
#[derive(Clone, Copy, Debug, Default, PartialEq, Eq)]
#[allow(missing_docs)]
pub struct Counts {
    pub accounts: usize,
    pub movements: usize,
    pub texts: usize,
}

/// The three tables that a read fills.
#[allow(missing_docs)]
pub struct Tables<'a> {
    pub accounts: Table<'a, AccountRow>,
    pub movements: Table<'a, MovementRow>,
    pub texts: Table<'a, TextRow>,
}

impl<'a> Tables<'a> {
    /// Tables over lent rows.
    #[must_use]
    pub const fn new(
        accounts: &'a mut [AccountRow],
        movements: &'a mut [MovementRow],
        texts: &'a mut [TextRow],
    ) -> Self {
        Self {
            accounts: Table::new(accounts),
            movements: Table::new(movements),
            texts: Table::new(texts),
        }
    }

    /// Forgets all filled rows.
    pub const fn clear(&mut self) {
        self.accounts.clear();
        self.movements.clear();
        self.texts.clear();
    }

    /// How many rows are filled.
    #[must_use]
    pub const fn counts(&self) -> Counts {
        Counts {
            accounts: self.accounts.filled,
            movements: self.movements.filled,
            texts: self.texts.filled,
        }
    }

    /// The filled rows.
    #[must_use]
    pub fn statement(&self) -> Statement<'_> {
        Statement {
            accounts: self.accounts.rows(),
            movements: self.movements.rows(),
            texts: self.texts.rows(),
        }
    }
}

/// Rows to be checked or written.
#[derive(Clone, Copy, Debug, PartialEq, Eq)]
#[allow(missing_docs)]
pub struct Statement<'a> {
    pub accounts: &'a [AccountRow],
    pub movements: &'a [MovementRow],
    pub texts: &'a [TextRow],
}

/// What a refusal tells.
#[derive(Clone, Copy, Debug, Default, PartialEq, Eq)]
pub struct Notice {
    /// 1 for carriers, 2 for readings, 3 for tables and outputs.
    pub layer: u8,
    /// The number of the refusal or fault.
    pub number: u32,
    /// The record, from 1; 0 where no record is meant.
    pub record: u32,
    /// A byte place, a column or a table.
    pub place: u64,
    /// The volume, from 1; 0 above layer 1.
    pub volume: u16,
}

impl Notice {
    /// A fault of a carrier at a record.
    #[must_use]
    pub const fn of_fault(fault: Fault, record: u32) -> Self {
        let Fault { number, place, volume } = fault;
        Self { layer: 1, number, record, place, volume }
    }

    /// A refusal of layer 3.
    #[must_use]
    pub const fn of_tables(number: u32, record: u32, place: u64) -> Self {
        Self { layer: 3, number, record, place, volume: 0 }
    }
}

impl From<Refusal> for Notice {
    fn from(refusal: Refusal) -> Self {
        Self {
            layer: 2,
            number: refusal.cause.number(),
            record: refusal.record,
            place: u64::from(refusal.cause.column()),
            volume: 0,
        }
    }
}
