//! Where the fields of the six kinds of record stand.

use super::{Failure, Question};
use crate::charset::RECORD_LENGTH;
use crate::fields::{is_blank, read_number, write_number};

/// A field by its first column, from 1, and its width.
#[derive(Clone, Copy)]
pub struct Field<const COLUMN: usize, const WIDTH: usize>;

impl<const COLUMN: usize, const WIDTH: usize> Field<COLUMN, WIDTH> {
    /// Its bytes.
    #[inline]
    pub fn of(self, record: &[u8; RECORD_LENGTH]) -> &[u8; WIDTH] {
        const { assert!(COLUMN >= 1 && COLUMN + WIDTH <= RECORD_LENGTH + 1) };
        record[COLUMN - 1..].first_chunk().expect("a field lies in its record")
    }

    /// Its bytes, to be written.
    #[inline]
    pub fn of_mut(self, record: &mut [u8; RECORD_LENGTH]) -> &mut [u8; WIDTH] {
        const { assert!(COLUMN >= 1 && COLUMN + WIDTH <= RECORD_LENGTH + 1) };
        record[COLUMN - 1..].first_chunk_mut().expect("a field lies in its record")
    }

    /// Refuses the field unless the question is answered yes.
    #[inline]
    pub fn ask(self, question: Question, yes: bool) -> Result<(), Failure> {
        if yes { Ok(()) } else { Err(self.fails(question)) }
    }

    /// The refusal of the field.
    #[inline]
    pub fn fails(self, question: Question) -> Failure {
        Failure { question, column: COLUMN as u8 }
    }

    /// Its number, where it has the form of digits.
    #[inline]
    pub fn number(self, record: &[u8; RECORD_LENGTH]) -> Result<u64, Failure> {
        read_number(self.of(record)).ok_or(self.fails(Question::Form))
    }

    /// The same for up to nine digits.
    #[inline]
    pub fn small(self, record: &[u8; RECORD_LENGTH]) -> Result<u32, Failure> {
        const { assert!(WIDTH <= 9) };
        Ok(self.number(record)? as u32)
    }

    /// Whether it has the form of spaces.
    #[inline]
    pub fn blank(self, record: &[u8; RECORD_LENGTH]) -> Result<(), Failure> {
        self.ask(Question::Form, is_blank(self.of(record)))
    }

    /// Writes a number; where it is too wide, tells the column.
    #[inline]
    pub fn put(self, record: &mut [u8; RECORD_LENGTH], number: u64) -> Result<(), u8> {
        if write_number(self.of_mut(record), number) { Ok(()) } else { Err(COLUMN as u8) }
    }
}

/// The columns of kind 11.
pub mod account {
    use super::Field;
    pub const ENTITY: Field<3, 4> = Field;
    pub const OFFICE: Field<7, 4> = Field;
    pub const ACCOUNT: Field<11, 10> = Field;
    pub const FIRST_DATE: Field<21, 6> = Field;
    pub const LAST_DATE: Field<27, 6> = Field;
    pub const KEY: Field<33, 1> = Field;
    pub const BALANCE: Field<34, 14> = Field;
    pub const CURRENCY: Field<48, 3> = Field;
    pub const MODALITY: Field<51, 1> = Field;
    pub const NAME: Field<52, 26> = Field;
    pub const FREE: Field<78, 3> = Field;
}

/// The columns of kind 22.
pub mod movement {
    use super::Field;
    pub const FREE: Field<3, 4> = Field;
    pub const ORIGIN_OFFICE: Field<7, 4> = Field;
    pub const OPERATION_DATE: Field<11, 6> = Field;
    pub const VALUE_DATE: Field<17, 6> = Field;
    pub const COMMON_CONCEPT: Field<23, 2> = Field;
    pub const OWN_CONCEPT: Field<25, 3> = Field;
    pub const KEY: Field<28, 1> = Field;
    pub const AMOUNT: Field<29, 14> = Field;
    pub const DOCUMENT: Field<43, 10> = Field;
    pub const REFERENCE_1: Field<53, 12> = Field;
    pub const REFERENCE_2: Field<65, 16> = Field;
}

/// The columns of kind 23.
pub mod text {
    use super::Field;
    pub const SEQUENCE: Field<3, 2> = Field;
    pub const FIRST: Field<5, 38> = Field;
    pub const SECOND: Field<43, 38> = Field;
}

/// The columns of kind 24.
pub mod equivalent {
    use super::Field;
    pub const FIXED: Field<3, 2> = Field;
    pub const CURRENCY: Field<5, 3> = Field;
    pub const AMOUNT: Field<8, 14> = Field;
    pub const FREE: Field<22, 59> = Field;
}

/// The columns of kind 33.
pub mod account_end {
    use super::Field;
    pub const ENTITY: Field<3, 4> = Field;
    pub const OFFICE: Field<7, 4> = Field;
    pub const ACCOUNT: Field<11, 10> = Field;
    pub const DEBITS: Field<21, 5> = Field;
    pub const DEBIT_TOTAL: Field<26, 14> = Field;
    pub const CREDITS: Field<40, 5> = Field;
    pub const CREDIT_TOTAL: Field<45, 14> = Field;
    pub const KEY: Field<59, 1> = Field;
    pub const BALANCE: Field<60, 14> = Field;
    pub const CURRENCY: Field<74, 3> = Field;
    pub const FREE: Field<77, 4> = Field;
}

/// The columns of kind 88.
pub mod file_end {
    use super::Field;
    pub const NINES: Field<3, 18> = Field;
    pub const RECORDS: Field<21, 6> = Field;
    pub const FREE: Field<27, 54> = Field;
}
