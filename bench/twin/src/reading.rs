//! A reading: it takes the records of a file one by one, or refuses them.

use crate::charset::{RECORD_LENGTH, Record, first_foreign};
use crate::records::{
    Account, AccountEnd, Equivalent, Failure, FileEnd, Kind, Movement, OpenAccount, Question, Text,
    read_account, read_account_end, read_equivalent, read_file_end, read_movement, read_text,
};

/// Why a call on a reading is refused.
#[derive(Clone, Copy, Debug, PartialEq, Eq)]
pub enum Cause {
    /// The bytes offered are not 80.
    Length,
    /// The byte at this column is no character.
    Character(u8),
    /// The code is none of the six.
    Code,
    /// The kind may not follow the records taken.
    Order,
    /// The record number is above the largest of its kind.
    RecordLimit,
    /// A field fails a question.
    Field(Failure),
    /// The file end is not yet taken.
    Unfinished,
}

impl Cause {
    /// The number that is told.
    #[must_use]
    pub const fn number(self) -> u32 {
        match self {
            Self::Length => 1,
            Self::Character(_) => 2,
            Self::Code => 3,
            Self::Order => 4,
            Self::RecordLimit => 8,
            Self::Field(failure) => match failure.question {
                Question::Form => 5,
                Question::Value => 6,
                Question::Agreement => 7,
                Question::Limit => 8,
            },
            Self::Unfinished => 9,
        }
    }

    /// The column that is told.
    #[must_use]
    pub const fn column(self) -> u8 {
        match self {
            Self::Length | Self::Unfinished => 0,
            Self::Code | Self::Order | Self::RecordLimit => 1,
            Self::Character(column) => column,
            Self::Field(failure) => failure.column,
        }
    }
}

/// A refused call.
#[derive(Clone, Copy, Debug, PartialEq, Eq)]
pub struct Refusal {
    /// Why.
    pub cause: Cause,
    /// One more than the records taken.
    pub record: u32,
}

/// What a taken record gives.
#[derive(Clone, Copy, Debug, PartialEq, Eq)]
#[allow(missing_docs)]
pub enum Entry<'a> {
    Account(Account<'a>),
    Movement(Movement<'a>),
    Text(Text<'a>),
    Equivalent(Equivalent),
    AccountEnd(AccountEnd),
    FileEnd(FileEnd),
}

/// What was taken last, as far as it says what may follow.
#[derive(Clone, Copy, Debug, PartialEq, Eq)]
enum Phase {
    Nothing,
    Account,
    /// A movement with this many texts.
    Movement(u8),
    Equivalent,
    AccountEnd,
    FileEnd,
}

const MOST_TEXTS: u8 = 5;

impl Phase {
    #[inline]
    const fn allows(self, kind: Kind) -> bool {
        match kind {
            Kind::Account => matches!(self, Self::Nothing | Self::AccountEnd),
            Kind::Movement | Kind::AccountEnd => {
                matches!(self, Self::Account | Self::Movement(_) | Self::Equivalent)
            }
            Kind::Text => matches!(self, Self::Movement(texts) if texts < MOST_TEXTS),
            Kind::Equivalent => matches!(self, Self::Movement(_)),
            Kind::FileEnd => matches!(self, Self::AccountEnd),
        }
    }

    #[inline]
    const fn texts(self) -> u8 {
        match self {
            Self::Movement(texts) => texts,
            _ => 0,
        }
    }
}

/// The records taken so far, as far as later ones depend on them.
#[derive(Clone, Debug, PartialEq, Eq)]
pub struct Reading {
    taken: u32,
    phase: Phase,
    open: OpenAccount,
}

impl Default for Reading {
    fn default() -> Self {
        Self::new()
    }
}

impl Reading {
    /// A reading that has taken no record.
    #[must_use]
    pub const fn new() -> Self {
        Self { taken: 0, phase: Phase::Nothing, open: OpenAccount::NONE }
    }

    /// How many records are taken.
    #[inline]
    #[must_use]
    pub const fn taken(&self) -> u32 {
        self.taken
    }

    /// Offers bytes of any content and length.
    ///
    /// # Errors
    /// The first question that is answered no; the reading stays as it was.
    pub fn offer<'a>(&mut self, bytes: &'a [u8]) -> Result<Entry<'a>, Refusal> {
        let Ok(bytes) = bytes.try_into() else {
            return Err(self.refusal(Cause::Length));
        };
        self.offer_bytes(bytes)
    }

    /// Offers a record, whose length and characters need no question.
    ///
    /// # Errors
    /// As [`Reading::offer`].
    #[inline]
    pub fn offer_record<'a>(&mut self, record: &'a Record) -> Result<Entry<'a>, Refusal> {
        self.offer_characters(record.bytes())
    }

    /// Offers eighty bytes.
    #[inline]
    pub(crate) fn offer_bytes<'a>(
        &mut self,
        bytes: &'a [u8; RECORD_LENGTH],
    ) -> Result<Entry<'a>, Refusal> {
        match first_foreign(bytes) {
            None => self.offer_characters(bytes),
            Some(place) => Err(self.refusal(Cause::Character(place as u8 + 1))),
        }
    }

    #[inline]
    fn offer_characters<'a>(
        &mut self,
        record: &'a [u8; RECORD_LENGTH],
    ) -> Result<Entry<'a>, Refusal> {
        let entry =
            self.admitted(record).and_then(|kind| self.judged(kind, record).map_err(Cause::Field));
        match entry {
            Ok(entry) => {
                self.take(&entry);
                Ok(entry)
            }
            Err(cause) => Err(self.refusal(cause)),
        }
    }

    /// The kind, where it is known, may follow, and is in its record limit.
    #[inline]
    fn admitted(&self, record: &[u8; RECORD_LENGTH]) -> Result<Kind, Cause> {
        let kind = Kind::of(record).ok_or(Cause::Code)?;
        if !self.phase.allows(kind) {
            return Err(Cause::Order);
        }
        if self.taken >= kind.last_number() {
            return Err(Cause::RecordLimit);
        }
        Ok(kind)
    }

    #[inline]
    fn judged<'a>(
        &self,
        kind: Kind,
        record: &'a [u8; RECORD_LENGTH],
    ) -> Result<Entry<'a>, Failure> {
        match kind {
            Kind::Account => read_account(record).map(Entry::Account),
            Kind::Movement => read_movement(record, &self.open).map(Entry::Movement),
            Kind::Text => read_text(record, self.phase.texts()).map(Entry::Text),
            Kind::Equivalent => read_equivalent(record, &self.open).map(Entry::Equivalent),
            Kind::AccountEnd => read_account_end(record, &self.open).map(Entry::AccountEnd),
            Kind::FileEnd => read_file_end(record, self.taken).map(Entry::FileEnd),
        }
    }

    #[inline]
    fn take(&mut self, entry: &Entry<'_>) {
        self.taken += 1;
        self.phase = match entry {
            Entry::Account(account) => {
                self.open = OpenAccount::new(account);
                Phase::Account
            }
            Entry::Movement(movement) => {
                self.open.sums.add(movement.key, movement.amount);
                Phase::Movement(0)
            }
            Entry::Text(text) => Phase::Movement(text.sequence),
            Entry::Equivalent(_) => Phase::Equivalent,
            Entry::AccountEnd(_) => Phase::AccountEnd,
            Entry::FileEnd(_) => Phase::FileEnd,
        };
    }

    /// Whether the records taken are a correct file.
    ///
    /// # Errors
    /// The file end is not yet taken.
    pub fn close(&self) -> Result<(), Refusal> {
        match self.phase {
            Phase::FileEnd => Ok(()),
            _ => Err(self.refusal(Cause::Unfinished)),
        }
    }

    #[cold]
    fn refusal(&self, cause: Cause) -> Refusal {
        Refusal { cause, record: self.taken + 1 }
    }
}
