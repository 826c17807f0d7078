//! Statements at random, the same in every run.

use super::Rows;
use twin::charset::CHARACTERS;
use twin::fields::{Key, Modality, check_digit, is_real_day, not_before};
use twin::records::{Equivalent, Sums};
use twin::rows::{AccountRow, MovementRow, TextRow};

const CURRENCIES: [u32; 11] = [36, 124, 208, 392, 554, 578, 752, 756, 826, 840, 978];

/// A xorshift generator.
pub struct Random(u64);

impl Random {
    pub const fn new(start: u64) -> Self {
        Self(start.wrapping_mul(0x9E37_79B9_7F4A_7C15) | 1)
    }

    pub const fn next(&mut self) -> u64 {
        self.0 ^= self.0 << 13;
        self.0 ^= self.0 >> 7;
        self.0 ^= self.0 << 17;
        self.0.wrapping_mul(0x2545_F491_4F6C_DD1D)
    }

    /// A number below a bound.
    pub const fn below(&mut self, bound: u64) -> u64 {
        (self.next() >> 11) % bound
    }

    pub const fn small(&mut self, bound: u32) -> u32 {
        self.below(bound as u64) as u32
    }

    pub const fn index(&mut self, len: usize) -> usize {
        self.below(len as u64) as usize
    }

    pub const fn one_in(&mut self, bound: u64) -> bool {
        self.below(bound) == 0
    }

    pub fn pick<T: Copy>(&mut self, list: &[T]) -> T {
        list[self.index(list.len())]
    }

    pub fn characters<const N: usize>(&mut self) -> [u8; N] {
        std::array::from_fn(|_| self.pick(&CHARACTERS))
    }

    pub fn key(&mut self) -> Key {
        self.pick(&[Key::Debit, Key::Credit])
    }

    pub fn day(&mut self) -> u32 {
        loop {
            let date = self.small(1_000_000);
            if is_real_day(date) {
                return date;
            }
        }
    }

    fn day_within(&mut self, first: u32, last: u32) -> u32 {
        (0..200)
            .map(|_| self.day())
            .find(|&day| not_before(day, first) && not_before(last, day))
            .unwrap_or(last)
    }

    /// An amount that is often 0 or small.
    fn amount(&mut self) -> u64 {
        let bound = self.pick(&[1, 1_000, 1_000_000_000, 900_000_000_000]);
        self.below(bound)
    }

    fn reference(&mut self) -> u64 {
        let number = self.below(100_000_000_000);
        let digits = format!("{number:011}");
        let digits = digits.as_bytes().try_into().expect("eleven digits");
        number * 10 + u64::from(check_digit(digits))
    }

    /// A statement in order.
    pub fn rows(&mut self) -> Rows {
        let mut rows = Rows::default();
        for _ in 0..=self.below(3) {
            self.account(&mut rows);
        }
        rows
    }

    fn account(&mut self, rows: &mut Rows) {
        let mut account = self.account_row();
        let mut sums = Sums::new(account.initial_key, account.initial_balance);
        for _ in 0..self.below(7) {
            let movement = self.movement(&account, &mut rows.texts);
            sums.add(movement.key, movement.amount);
            rows.movements.push(movement);
            account.movements += 1;
        }
        account.final_key = Some(match sums.balance {
            ..=-1 => Key::Debit,
            0 => self.key(),
            1.. => Key::Credit,
        });
        rows.accounts.push(account);
    }

    fn account_row(&mut self) -> AccountRow {
        let (one, other) = (self.day(), self.day());
        let in_order = not_before(other, one);
        AccountRow {
            entity: self.small(10_000),
            office: self.small(10_000),
            account: self.below(10_000_000_000),
            first_date: if in_order { one } else { other },
            last_date: if in_order { other } else { one },
            initial_key: self.key(),
            initial_balance: self.amount(),
            currency: self.pick(&CURRENCIES),
            modality: self.pick(&[Modality::One, Modality::Two, Modality::Three]),
            name: self.characters(),
            movements: 0,
            final_key: None,
        }
    }

    fn movement(&mut self, account: &AccountRow, texts: &mut Vec<TextRow>) -> MovementRow {
        let count = self.small(6);
        texts.extend(
            (0..count).map(|_| TextRow { first: self.characters(), second: self.characters() }),
        );
        let (office, references) = match account.modality {
            Modality::One => (false, false),
            Modality::Two => (true, false),
            Modality::Three => (true, true),
        };
        MovementRow {
            origin_office: office.then(|| self.small(10_000)),
            operation_date: self.day_within(account.first_date, account.last_date),
            value_date: self.day(),
            common_concept: self.pick(&[1, 2, 16, 17, 98, 99]),
            own_concept: self.small(1_000),
            key: self.key(),
            amount: self.amount(),
            document: self.below(10_000_000_000),
            reference_1: references.then(|| self.reference()),
            reference_2: if references { self.characters() } else { [b' '; 16] },
            texts: count,
            equivalent: self.equivalent(account.currency),
        }
    }

    fn equivalent(&mut self, not: u32) -> Option<Equivalent> {
        let currency = self.pick(&CURRENCIES);
        let amount = self.amount();
        (currency != not && self.one_in(2)).then_some(Equivalent { currency, amount })
    }
}
