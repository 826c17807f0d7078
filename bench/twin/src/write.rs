//! Checking tables of any content, and writing them.

use crate::carrier::Image;
use crate::charset::RECORD_LENGTH;
use crate::reading::Reading;
use crate::records::{Equivalent, Kind, Sums, layout};
use crate::rows::{AccountRow, MovementRow, Notice, Statement, TextRow};

/// How many records the rows make.
///
/// # Errors
/// The first question that they fail: 32, and record by record 33 and the reading's.
pub fn check_tables(statement: &Statement<'_>) -> Result<u32, Notice> {
    let movements = statement.accounts.iter().map(|row| row.movements);
    let texts = statement.movements.iter().map(|row| row.texts);
    if !adds_up(movements, statement.movements.len()) {
        return Err(Notice::of_tables(32, 0, 1));
    }
    if !adds_up(texts, statement.texts.len()) {
        return Err(Notice::of_tables(32, 0, 2));
    }
    let mut reading = Reading::new();
    compose(statement, |record| {
        reading.offer_bytes(record)?;
        Ok(())
    })
}

/// Writes the records of the rows to an image; tells how many.
///
/// # Errors
/// As [`check_tables`], or 34 where the image has too few places. Nothing is put then.
pub fn write(statement: &Statement<'_>, image: &mut Image<'_>) -> Result<u32, Notice> {
    let no_places = Notice::of_tables(34, 0, 0);
    let records = check_tables(statement)?;
    if image.places() < records as usize {
        return Err(no_places);
    }
    compose(statement, |record| image.append(record).map_err(|_| no_places))
}

/// Whether counts of any size make up a number of rows.
fn adds_up(mut counts: impl Iterator<Item = u32>, rows: usize) -> bool {
    counts.try_fold(rows, |left, count| left.checked_sub(count as usize)) == Some(0)
}

/// Composes record after record and visits each; tells how many. The counts have to add up.
#[inline]
fn compose<F>(statement: &Statement<'_>, visit: F) -> Result<u32, Notice>
where
    F: FnMut(&[u8; RECORD_LENGTH]) -> Result<(), Notice>,
{
    let mut composer = Composer { record: BLANK, composed: 0, visit };
    let (mut movements, mut texts) = (statement.movements, statement.texts);
    for account in statement.accounts {
        composer.next(|record| put_account(record, account))?;
        let mut sums = Sums::new(account.initial_key, account.initial_balance);
        for movement in front(&mut movements, account.movements) {
            composer.movement(movement, front(&mut texts, movement.texts))?;
            sums.add(movement.key, movement.amount);
        }
        composer.next(|record| put_account_end(record, account, &sums))?;
    }
    let before = composer.composed;
    composer.next(|record| put_file_end(record, before))?;
    Ok(composer.composed)
}

/// Takes the first rows of those left.
#[inline]
fn front<'a, T>(left: &mut &'a [T], count: u32) -> &'a [T] {
    let (front, rest) = left.split_at(count as usize);
    *left = rest;
    front
}

const BLANK: [u8; RECORD_LENGTH] = [b' '; RECORD_LENGTH];

/// The column of a number that is too wide, or nothing.
type Put = Result<(), u8>;

struct Composer<F> {
    record: [u8; RECORD_LENGTH],
    composed: u32,
    visit: F,
}

impl<F: FnMut(&[u8; RECORD_LENGTH]) -> Result<(), Notice>> Composer<F> {
    /// Composes one record and visits it.
    #[inline]
    fn next(&mut self, put: impl FnOnce(&mut [u8; RECORD_LENGTH]) -> Put) -> Result<(), Notice> {
        self.record = BLANK;
        let number = self.composed + 1;
        put(&mut self.record).map_err(|column| Notice::of_tables(33, number, u64::from(column)))?;
        (self.visit)(&self.record)?;
        self.composed = number;
        Ok(())
    }

    #[inline]
    fn movement(&mut self, movement: &MovementRow, texts: &[TextRow]) -> Result<(), Notice> {
        self.next(|record| put_movement(record, movement))?;
        for (text, sequence) in texts.iter().zip(1..) {
            self.next(|record| put_text(record, text, sequence))?;
        }
        if let Some(equivalent) = &movement.equivalent {
            self.next(|record| put_equivalent(record, equivalent))?;
        }
        Ok(())
    }
}

#[inline]
fn put_code(record: &mut [u8; RECORD_LENGTH], kind: Kind) {
    [record[0], record[1]] = kind.code();
}

#[inline]
fn put_account(record: &mut [u8; RECORD_LENGTH], row: &AccountRow) -> Put {
    use layout::account as at;
    put_code(record, Kind::Account);
    at::ENTITY.put(record, row.entity.into())?;
    at::OFFICE.put(record, row.office.into())?;
    at::ACCOUNT.put(record, row.account)?;
    at::FIRST_DATE.put(record, row.first_date.into())?;
    at::LAST_DATE.put(record, row.last_date.into())?;
    at::KEY.put(record, row.initial_key.digit().into())?;
    at::BALANCE.put(record, row.initial_balance)?;
    at::CURRENCY.put(record, row.currency.into())?;
    at::MODALITY.put(record, row.modality.digit().into())?;
    *at::NAME.of_mut(record) = row.name;
    Ok(())
}

#[inline]
fn put_movement(record: &mut [u8; RECORD_LENGTH], row: &MovementRow) -> Put {
    use layout::movement as at;
    put_code(record, Kind::Movement);
    if let Some(office) = row.origin_office {
        at::ORIGIN_OFFICE.put(record, office.into())?;
    }
    at::OPERATION_DATE.put(record, row.operation_date.into())?;
    at::VALUE_DATE.put(record, row.value_date.into())?;
    at::COMMON_CONCEPT.put(record, row.common_concept.into())?;
    at::OWN_CONCEPT.put(record, row.own_concept.into())?;
    at::KEY.put(record, row.key.digit().into())?;
    at::AMOUNT.put(record, row.amount)?;
    at::DOCUMENT.put(record, row.document)?;
    if let Some(reference) = row.reference_1 {
        at::REFERENCE_1.put(record, reference)?;
    }
    *at::REFERENCE_2.of_mut(record) = row.reference_2;
    Ok(())
}

#[inline]
fn put_text(record: &mut [u8; RECORD_LENGTH], row: &TextRow, sequence: u64) -> Put {
    use layout::text as at;
    put_code(record, Kind::Text);
    at::SEQUENCE.put(record, sequence)?;
    *at::FIRST.of_mut(record) = row.first;
    *at::SECOND.of_mut(record) = row.second;
    Ok(())
}

#[inline]
fn put_equivalent(record: &mut [u8; RECORD_LENGTH], equivalent: &Equivalent) -> Put {
    use layout::equivalent as at;
    put_code(record, Kind::Equivalent);
    at::FIXED.put(record, 1)?;
    at::CURRENCY.put(record, equivalent.currency.into())?;
    at::AMOUNT.put(record, equivalent.amount)
}

#[inline]
fn put_account_end(record: &mut [u8; RECORD_LENGTH], row: &AccountRow, sums: &Sums) -> Put {
    use layout::account_end as at;
    put_code(record, Kind::AccountEnd);
    at::ENTITY.put(record, row.entity.into())?;
    at::OFFICE.put(record, row.office.into())?;
    at::ACCOUNT.put(record, row.account)?;
    at::DEBITS.put(record, sums.debits.count.into())?;
    at::DEBIT_TOTAL.put(record, sums.debits.total)?;
    at::CREDITS.put(record, sums.credits.count.into())?;
    at::CREDIT_TOTAL.put(record, sums.credits.total)?;
    at::KEY.put(record, row.final_key.map_or(0, |key| key.digit().into()))?;
    at::BALANCE.put(record, sums.balance.unsigned_abs())?;
    at::CURRENCY.put(record, row.currency.into())
}

#[inline]
fn put_file_end(record: &mut [u8; RECORD_LENGTH], before: u32) -> Put {
    use layout::file_end as at;
    put_code(record, Kind::FileEnd);
    *at::NINES.of_mut(record) = [b'9'; 18];
    at::RECORDS.put(record, before.into())
}
