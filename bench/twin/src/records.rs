//! The six kinds of record: their values, and the questions at their fields.

pub(crate) mod layout;

use crate::charset::RECORD_LENGTH;
use crate::fields::{
    Key, Modality, is_common_concept, is_currency, is_digits, is_real_day, is_reference, not_before,
};
use Question::{Agreement, Form, Limit, Value};

/// The most that fourteen digits spell.
pub const MAXIMUM: u64 = 99_999_999_999_999;

/// The most debits, and the most credits, of an account.
pub const MOST_MOVEMENTS: u32 = 99_999;

type Bytes = [u8; RECORD_LENGTH];

/// What a field fails.
#[derive(Clone, Copy, Debug, PartialEq, Eq)]
pub enum Question {
    /// Its form.
    Form,
    /// Its value by itself.
    Value,
    /// Its agreement with what came before.
    Agreement,
    /// A limit.
    Limit,
}

/// A field that fails a question.
#[derive(Clone, Copy, Debug, PartialEq, Eq)]
pub struct Failure {
    /// What it fails.
    pub question: Question,
    /// Its first column.
    pub column: u8,
}

/// The kinds of record.
#[derive(Clone, Copy, Debug, PartialEq, Eq)]
pub enum Kind {
    /// 11
    Account,
    /// 22
    Movement,
    /// 23
    Text,
    /// 24
    Equivalent,
    /// 33
    AccountEnd,
    /// 88
    FileEnd,
}

impl Kind {
    /// The kind that a record is by its first two characters.
    #[inline]
    #[must_use]
    pub const fn of(record: &Bytes) -> Option<Self> {
        match [record[0], record[1]] {
            [b'1', b'1'] => Some(Self::Account),
            [b'2', b'2'] => Some(Self::Movement),
            [b'2', b'3'] => Some(Self::Text),
            [b'2', b'4'] => Some(Self::Equivalent),
            [b'3', b'3'] => Some(Self::AccountEnd),
            [b'8', b'8'] => Some(Self::FileEnd),
            _ => None,
        }
    }

    /// Its code.
    #[inline]
    #[must_use]
    pub const fn code(self) -> [u8; 2] {
        match self {
            Self::Account => *b"11",
            Self::Movement => *b"22",
            Self::Text => *b"23",
            Self::Equivalent => *b"24",
            Self::AccountEnd => *b"33",
            Self::FileEnd => *b"88",
        }
    }

    /// The largest number that a record of the kind may have.
    #[inline]
    #[must_use]
    pub const fn last_number(self) -> u32 {
        match self {
            Self::AccountEnd => 999_999,
            Self::FileEnd => 1_000_000,
            _ => 999_998,
        }
    }
}

/// The values of an account record.
#[derive(Clone, Copy, Debug, PartialEq, Eq)]
#[allow(missing_docs)]
pub struct Account<'a> {
    pub entity: u32,
    pub office: u32,
    pub account: u64,
    pub first_date: u32,
    pub last_date: u32,
    pub initial_key: Key,
    pub initial_balance: u64,
    pub currency: u32,
    pub modality: Modality,
    pub name: &'a [u8; 26],
}

/// The values of a movement record.
#[derive(Clone, Copy, Debug, PartialEq, Eq)]
#[allow(missing_docs)]
pub struct Movement<'a> {
    pub origin_office: Option<u32>,
    pub operation_date: u32,
    pub value_date: u32,
    pub common_concept: u32,
    pub own_concept: u32,
    pub key: Key,
    pub amount: u64,
    pub document: u64,
    pub reference_1: Option<u64>,
    pub reference_2: &'a [u8; 16],
}

/// The values of a text.
#[derive(Clone, Copy, Debug, PartialEq, Eq)]
#[allow(missing_docs)]
pub struct Text<'a> {
    pub sequence: u8,
    pub first: &'a [u8; 38],
    pub second: &'a [u8; 38],
}

/// The amount of a movement in the currency that it came from.
#[derive(Clone, Copy, Debug, PartialEq, Eq)]
#[allow(missing_docs)]
pub struct Equivalent {
    pub currency: u32,
    pub amount: u64,
}

/// The values of an account end.
#[derive(Clone, Copy, Debug, PartialEq, Eq)]
#[allow(missing_docs)]
pub struct AccountEnd {
    pub entity: u32,
    pub office: u32,
    pub account: u64,
    pub debits: u32,
    pub debit_total: u64,
    pub credits: u32,
    pub credit_total: u64,
    pub final_key: Key,
    pub final_balance: u64,
    pub currency: u32,
}

/// The values of a file end.
#[derive(Clone, Copy, Debug, PartialEq, Eq)]
#[allow(missing_docs)]
pub struct FileEnd {
    pub records: u32,
}

/// Movements of one side.
#[derive(Clone, Copy, Debug, Default, PartialEq, Eq)]
pub struct Side {
    /// How many.
    pub count: u32,
    /// Their total.
    pub total: u64,
}

/// The counts, totals and balance of an account so far.
#[derive(Clone, Copy, Debug, Default, PartialEq, Eq)]
pub struct Sums {
    /// Its debits.
    pub debits: Side,
    /// Its credits.
    pub credits: Side,
    /// Its balance, negative on the debit side.
    pub balance: i64,
}

impl Sums {
    /// Those of an account without movements.
    #[inline]
    #[must_use]
    pub fn new(initial_key: Key, initial_balance: u64) -> Self {
        Self { balance: initial_key.signed(initial_balance), ..Self::default() }
    }

    #[inline]
    const fn side(&self, key: Key) -> &Side {
        match key {
            Key::Debit => &self.debits,
            Key::Credit => &self.credits,
        }
    }

    #[inline]
    const fn counts_in_limit(&self, key: Key) -> bool {
        self.side(key).count < MOST_MOVEMENTS
    }

    #[inline]
    const fn stays_in_limit(&self, key: Key, amount: u64) -> bool {
        let balance = self.balance + key.signed(amount);
        self.side(key).total + amount <= MAXIMUM && balance.unsigned_abs() <= MAXIMUM
    }

    #[inline]
    const fn key_fits(&self, key: Key) -> bool {
        match key {
            Key::Debit => self.balance <= 0,
            Key::Credit => self.balance >= 0,
        }
    }

    /// Adds a movement that stays in the limits.
    #[inline]
    pub const fn add(&mut self, key: Key, amount: u64) {
        let side = match key {
            Key::Debit => &mut self.debits,
            Key::Credit => &mut self.credits,
        };
        side.count += 1;
        side.total += amount;
        self.balance += key.signed(amount);
    }
}

/// An account that is being read: what later records have to agree with.
#[derive(Clone, Copy, Debug, PartialEq, Eq)]
pub(crate) struct OpenAccount {
    entity: u32,
    office: u32,
    account: u64,
    first_date: u32,
    last_date: u32,
    currency: u32,
    modality: Modality,
    pub sums: Sums,
}

impl OpenAccount {
    /// None is open: a placeholder that no record is judged by.
    pub const NONE: Self = Self {
        entity: 0,
        office: 0,
        account: 0,
        first_date: 0,
        last_date: 0,
        currency: 0,
        modality: Modality::One,
        sums: Sums {
            debits: Side { count: 0, total: 0 },
            credits: Side { count: 0, total: 0 },
            balance: 0,
        },
    };

    #[inline]
    pub fn new(account: &Account<'_>) -> Self {
        Self {
            entity: account.entity,
            office: account.office,
            account: account.account,
            first_date: account.first_date,
            last_date: account.last_date,
            currency: account.currency,
            modality: account.modality,
            sums: Sums::new(account.initial_key, account.initial_balance),
        }
    }

    #[inline]
    fn has_day(&self, date: u32) -> bool {
        not_before(date, self.first_date) && not_before(self.last_date, date)
    }
}

#[inline]
fn key_at<const COLUMN: usize>(
    field: layout::Field<COLUMN, 1>,
    record: &Bytes,
) -> Result<Key, Failure> {
    let digit = field.small(record)? as u8;
    Key::from_digit(digit).ok_or(field.fails(Value))
}

#[inline]
fn date_at<const COLUMN: usize>(
    field: layout::Field<COLUMN, 6>,
    record: &Bytes,
) -> Result<u32, Failure> {
    let date = field.small(record)?;
    field.ask(Value, is_real_day(date))?;
    Ok(date)
}

#[inline]
fn currency_at<const COLUMN: usize>(
    field: layout::Field<COLUMN, 3>,
    record: &Bytes,
) -> Result<u32, Failure> {
    let currency = field.small(record)?;
    field.ask(Value, is_currency(currency))?;
    Ok(currency)
}

/// A number that has to be the one expected.
#[inline]
fn agreed<const COLUMN: usize, const WIDTH: usize>(
    field: layout::Field<COLUMN, WIDTH>,
    record: &Bytes,
    expected: u64,
) -> Result<(), Failure> {
    let number = field.number(record)?;
    field.ask(Agreement, number == expected)
}

#[inline]
pub(crate) fn read_account(record: &Bytes) -> Result<Account<'_>, Failure> {
    use layout::account as at;
    let entity = at::ENTITY.small(record)?;
    let office = at::OFFICE.small(record)?;
    let account = at::ACCOUNT.number(record)?;
    let first_date = date_at(at::FIRST_DATE, record)?;
    let last_date = date_at(at::LAST_DATE, record)?;
    at::LAST_DATE.ask(Agreement, not_before(last_date, first_date))?;
    let initial_key = key_at(at::KEY, record)?;
    let initial_balance = at::BALANCE.number(record)?;
    let currency = currency_at(at::CURRENCY, record)?;
    let modality = at::MODALITY.small(record)? as u8;
    let modality = Modality::from_digit(modality).ok_or(at::MODALITY.fails(Value))?;
    let name = at::NAME.of(record);
    at::FREE.blank(record)?;
    Ok(Account {
        entity,
        office,
        account,
        first_date,
        last_date,
        initial_key,
        initial_balance,
        currency,
        modality,
        name,
    })
}

#[inline]
pub(crate) fn read_movement<'a>(
    record: &'a Bytes,
    open: &OpenAccount,
) -> Result<Movement<'a>, Failure> {
    use layout::movement as at;
    at::FREE.blank(record)?;
    let origin_office = origin_office(record, open.modality)?;
    let operation_date = date_at(at::OPERATION_DATE, record)?;
    at::OPERATION_DATE.ask(Agreement, open.has_day(operation_date))?;
    let value_date = date_at(at::VALUE_DATE, record)?;
    let common_concept = at::COMMON_CONCEPT.small(record)?;
    at::COMMON_CONCEPT.ask(Value, is_common_concept(common_concept))?;
    let own_concept = at::OWN_CONCEPT.small(record)?;
    let key = key_at(at::KEY, record)?;
    at::KEY.ask(Limit, open.sums.counts_in_limit(key))?;
    let amount = at::AMOUNT.number(record)?;
    at::AMOUNT.ask(Limit, open.sums.stays_in_limit(key, amount))?;
    let document = at::DOCUMENT.number(record)?;
    let reference_1 = references(record, open.modality)?;
    let reference_2 = at::REFERENCE_2.of(record);
    Ok(Movement {
        origin_office,
        operation_date,
        value_date,
        common_concept,
        own_concept,
        key,
        amount,
        document,
        reference_1,
        reference_2,
    })
}

#[inline]
fn origin_office(record: &Bytes, modality: Modality) -> Result<Option<u32>, Failure> {
    let field = layout::movement::ORIGIN_OFFICE;
    match modality {
        Modality::One => field.blank(record).map(|()| None),
        Modality::Two | Modality::Three => field.small(record).map(Some),
    }
}

/// Both references; the first is given.
#[inline]
fn references(record: &Bytes, modality: Modality) -> Result<Option<u64>, Failure> {
    use layout::movement::{REFERENCE_1, REFERENCE_2};
    if modality == Modality::Three {
        let number = REFERENCE_1.number(record)?;
        REFERENCE_1.ask(Value, is_reference(REFERENCE_1.of(record)))?;
        return Ok(Some(number));
    }
    REFERENCE_1.blank(record)?;
    REFERENCE_2.blank(record)?;
    Ok(None)
}

/// `texts` are those of the movement before.
#[inline]
pub(crate) fn read_text(record: &Bytes, texts: u8) -> Result<Text<'_>, Failure> {
    use layout::text as at;
    let sequence = at::SEQUENCE.small(record)? as u8;
    at::SEQUENCE.ask(Value, matches!(sequence, 1..=5))?;
    at::SEQUENCE.ask(Agreement, sequence == texts + 1)?;
    Ok(Text { sequence, first: at::FIRST.of(record), second: at::SECOND.of(record) })
}

#[inline]
pub(crate) fn read_equivalent(record: &Bytes, open: &OpenAccount) -> Result<Equivalent, Failure> {
    use layout::equivalent as at;
    let fixed = at::FIXED.small(record)?;
    at::FIXED.ask(Value, fixed == 1)?;
    let currency = currency_at(at::CURRENCY, record)?;
    at::CURRENCY.ask(Agreement, currency != open.currency)?;
    let amount = at::AMOUNT.number(record)?;
    at::FREE.blank(record)?;
    Ok(Equivalent { currency, amount })
}

#[inline]
pub(crate) fn read_account_end(record: &Bytes, open: &OpenAccount) -> Result<AccountEnd, Failure> {
    use layout::account_end as at;
    let Sums { debits, credits, balance } = open.sums;
    agreed(at::ENTITY, record, u64::from(open.entity))?;
    agreed(at::OFFICE, record, u64::from(open.office))?;
    agreed(at::ACCOUNT, record, open.account)?;
    agreed(at::DEBITS, record, u64::from(debits.count))?;
    agreed(at::DEBIT_TOTAL, record, debits.total)?;
    agreed(at::CREDITS, record, u64::from(credits.count))?;
    agreed(at::CREDIT_TOTAL, record, credits.total)?;
    let final_key = key_at(at::KEY, record)?;
    at::KEY.ask(Agreement, open.sums.key_fits(final_key))?;
    agreed(at::BALANCE, record, balance.unsigned_abs())?;
    let currency = currency_at(at::CURRENCY, record)?;
    at::CURRENCY.ask(Agreement, currency == open.currency)?;
    at::FREE.blank(record)?;
    Ok(AccountEnd {
        entity: open.entity,
        office: open.office,
        account: open.account,
        debits: debits.count,
        debit_total: debits.total,
        credits: credits.count,
        credit_total: credits.total,
        final_key,
        final_balance: balance.unsigned_abs(),
        currency,
    })
}

/// `taken` are the records before it.
#[inline]
pub(crate) fn read_file_end(record: &Bytes, taken: u32) -> Result<FileEnd, Failure> {
    use layout::file_end as at;
    let nines = at::NINES.of(record);
    at::NINES.ask(Form, is_digits(nines))?;
    at::NINES.ask(Value, *nines == [b'9'; 18])?;
    agreed(at::RECORDS, record, u64::from(taken))?;
    at::FREE.blank(record)?;
    Ok(FileEnd { records: taken })
}
