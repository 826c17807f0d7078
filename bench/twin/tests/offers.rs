//! Offers to a reading: order, limits, and the examples of the documents.

use twin::reading::{Cause, Entry, Reading, Refusal};
use twin::records::{Failure, Question};

const M: u64 = 99_999_999_999_999;

fn account(key: u8, balance: u64, modality: u8) -> Vec<u8> {
    let head = "119999000112345678909912150001";
    padded(format!("{head}14{key}{balance:014}978{modality}NAME"))
}

fn movement(key: u8, amount: u64) -> Vec<u8> {
    padded(format!("22        00010100010101000{key}{amount:014}0000000000"))
}

fn text(sequence: u8) -> Vec<u8> {
    padded(format!("23{sequence:02}TEXT"))
}

fn equivalent(currency: u32) -> Vec<u8> {
    padded(format!("2401{currency:03}00000000000100"))
}

fn account_end(sides: [(u32, u64); 2], key: u8, balance: u64) -> Vec<u8> {
    let [(debits, debit), (credits, credit)] = sides;
    let sums = format!("{debits:05}{debit:014}{credits:05}{credit:014}{key}{balance:014}");
    padded(format!("33999900011234567890{sums}978"))
}

fn file_end(records: u32) -> Vec<u8> {
    padded(format!("88999999999999999999{records:06}"))
}

fn padded(text: String) -> Vec<u8> {
    format!("{text:80}").into_bytes()
}

fn told(answer: Result<Entry<'_>, Refusal>) -> Option<(u32, u32, u8)> {
    answer.err().map(|refusal| (refusal.cause.number(), refusal.record, refusal.cause.column()))
}

fn after(records: &[Vec<u8>]) -> Reading {
    let mut reading = Reading::new();
    for record in records {
        assert_eq!(told(reading.offer(record)), None, "{}", String::from_utf8_lossy(record));
    }
    reading
}

/// The answer to one offer; a refusal has to leave the reading as it was.
fn answer(reading: &Reading, record: &[u8]) -> Option<(u32, u32, u8)> {
    let mut trial = reading.clone();
    let told = told(trial.offer(record));
    assert_eq!(told.is_some(), trial == *reading);
    told
}

#[test]
fn length_comes_before_characters_and_characters_before_the_code() {
    let reading = Reading::new();
    assert_eq!(answer(&reading, &[]), Some((1, 1, 0)));
    assert_eq!(answer(&reading, &[0; 79]), Some((1, 1, 0)));
    assert_eq!(answer(&reading, &[b'A'; 81]), Some((1, 1, 0)));
    let mut bytes = account(2, 0, 1);
    bytes[79] = b'a';
    assert_eq!(answer(&reading, &bytes), Some((2, 1, 80)));
    bytes[0] = 0;
    assert_eq!(answer(&reading, &bytes), Some((2, 1, 1)));
    assert_eq!(answer(&reading, &[b'9'; 80]), Some((3, 1, 1)));
}

#[test]
fn each_kind_has_its_followers() {
    let zero = [(0, 0), (0, 0)];
    let kinds = [
        account(2, 0, 1),
        movement(2, 0),
        text(1),
        equivalent(840),
        account_end(zero, 2, 0),
        file_end(2),
    ];
    let follows = |taken: &[Vec<u8>]| {
        let reading = after(taken);
        let may = |kind: &Vec<u8>| answer(&reading, kind).is_none_or(|told| told.0 != 4);
        kinds.iter().map(|kind| if may(kind) { 'x' } else { '.' }).collect::<String>()
    };
    let (head, end) = (account(2, 0, 1), account_end(zero, 2, 0));
    let mut texts = vec![head.clone(), movement(2, 0)];
    assert_eq!(follows(&[]), "x.....");
    assert_eq!(follows(std::slice::from_ref(&head)), ".x..x.");
    assert_eq!(follows(&texts), ".xxxx.");
    for sequence in 1..=5 {
        assert_eq!(answer(&after(&texts), &text(6)), Some((6, u32::from(sequence) + 2, 3)));
        texts.push(text(sequence));
        let expected = if sequence < 5 { ".xxxx." } else { ".x.xx." };
        assert_eq!(follows(&texts), expected);
    }
    texts.push(equivalent(840));
    assert_eq!(follows(&texts), ".x..x.");
    assert_eq!(follows(&[head.clone(), end.clone()]), "x....x");
    assert_eq!(follows(&[head, end, file_end(2)]), "......");
}

#[test]
fn a_close_is_granted_after_the_file_end_only() {
    let records = [account(1, 0, 3), account_end([(0, 0), (0, 0)], 2, 0), file_end(2)];
    for taken in 0..3 {
        let refusal = Refusal { cause: Cause::Unfinished, record: taken as u32 + 1 };
        assert_eq!(after(&records[..taken]).close(), Err(refusal));
    }
    let reading = after(&records);
    assert_eq!(reading.close(), Ok(()));
    assert_eq!(answer(&reading, &account(1, 0, 3)), Some((4, 4, 1)));
}

#[test]
fn a_zero_balance_has_either_key() {
    for key in [1, 2] {
        after(&[account(key, 0, 1), account_end([(0, 0), (0, 0)], 3 - key, 0), file_end(2)]);
    }
    let reading = after(&[account(1, 5, 1)]);
    assert_eq!(answer(&reading, &account_end([(0, 0), (0, 0)], 2, 5)), Some((7, 2, 59)));
    assert_eq!(answer(&reading, &account_end([(0, 0), (0, 0)], 0, 5)), Some((6, 2, 59)));
    assert_eq!(answer(&reading, &account_end([(0, 0), (0, 0)], 1, 6)), Some((7, 2, 60)));
    assert_eq!(answer(&reading, &account_end([(0, 0), (0, 0)], 1, 5)), None);
}

#[test]
fn totals_and_balances_stay_in_their_limit() {
    let full = after(&[account(2, M, 1)]);
    assert_eq!(answer(&full, &movement(2, 1)), Some((8, 2, 29)));
    assert_eq!(answer(&full, &movement(1, 1)), None);
    assert_eq!(answer(&full, &movement(2, 0)), None);
    assert_eq!(answer(&full, &movement(1, M)), None);
    let spent = after(&[account(2, M, 1), movement(1, M)]);
    assert_eq!(answer(&spent, &movement(1, 1)), Some((8, 3, 29)));
    assert_eq!(answer(&spent, &movement(2, M)), None);
    let low = after(&[account(1, M, 1)]);
    assert_eq!(answer(&low, &movement(1, 1)), Some((8, 2, 29)));
}

#[test]
fn fields_are_asked_from_the_left() {
    let reading = after(&[account(2, 0, 2)]);
    assert_eq!(answer(&reading, &movement(2, 0)), Some((5, 2, 7)));
    let reading = after(&[account(2, 0, 1), movement(2, 0)]);
    assert_eq!(answer(&reading, &equivalent(978)), Some((7, 3, 5)));
    assert_eq!(answer(&reading, &equivalent(979)), Some((6, 3, 5)));
    assert_eq!(answer(&reading, &text(0)), Some((6, 3, 3)));
    assert_eq!(answer(&reading, &text(2)), Some((7, 3, 3)));
    let period = |dates: &str| padded(format!("11999900011234567890{dates}"));
    let reading = Reading::new();
    assert_eq!(answer(&reading, &period("010229000101")), Some((6, 1, 21)));
    assert_eq!(answer(&reading, &period("000229000101")), Some((7, 1, 27)));
    assert_eq!(answer(&reading, &period("991215000114")), Some((5, 1, 33)));
}

#[test]
fn references_have_their_check_digit() {
    let with = |reference: &str, second: &str| {
        let start = "22    0001000101000101010002000000000000010000000000";
        padded(format!("{start}{reference:12}{second}"))
    };
    let reading = after(&[account(2, 0, 3)]);
    assert_eq!(answer(&reading, &with("825467890138", "ANY")), None);
    assert_eq!(answer(&reading, &with("825467890137", "ANY")), Some((6, 2, 53)));
    assert_eq!(answer(&reading, &with("", "ANY")), Some((5, 2, 53)));
    let reading = after(&[account(2, 0, 2)]);
    assert_eq!(answer(&reading, &with("825467890138", "ANY")), Some((5, 2, 53)));
    assert_eq!(answer(&reading, &with("", "ANY")), Some((5, 2, 65)));
    assert_eq!(answer(&reading, &with("", "")), None);
}

#[test]
fn an_offer_lends_its_texts() {
    let mut reading = after(&[account(2, 0, 1), movement(2, 0)]);
    let mut record = text(1);
    record[42] = b'Z';
    let Ok(Entry::Text(text)) = reading.offer(&record) else { panic!("a text") };
    assert_eq!((text.sequence, text.first.as_ptr()), (1, record[4..].as_ptr()));
    assert_eq!((text.second[0], text.second.as_ptr()), (b'Z', record[42..].as_ptr()));
}

#[test]
fn the_counts_of_an_account_are_limited() {
    let mut reading = after(&[account(2, 0, 1)]);
    let debit = movement(1, 0);
    for _ in 0..99_999 {
        assert!(reading.offer(&debit).is_ok());
    }
    assert_eq!(answer(&reading, &debit), Some((8, 100_001, 28)));
    assert_eq!(answer(&reading, &movement(2, 0)), None);
    assert_eq!(answer(&reading, &account_end([(99_999, 0), (0, 0)], 1, 0)), None);
}

#[test]
fn a_file_is_filled_to_its_last_record() {
    let (head, credit) = (account(2, 0, 1), movement(2, 0));
    let end = |credits| account_end([(0, 0), (credits, 0)], 2, 0);
    let mut reading = Reading::new();
    for _ in 0..10 {
        take_account(&mut reading, &head, &credit, 99_997);
        assert!(reading.offer(&end(99_997)).is_ok());
    }
    take_account(&mut reading, &head, &credit, 7);
    for record in [&credit, &text(1), &equivalent(840)] {
        assert_eq!(answer(&reading, record), Some((8, 999_999, 1)));
    }
    assert!(reading.offer(&end(7)).is_ok());
    assert_eq!(answer(&reading, &head), Some((8, 1_000_000, 1)));
    assert_eq!(answer(&reading, &file_end(999_998)), Some((7, 1_000_000, 21)));
    assert!(reading.offer(&file_end(999_999)).is_ok());
    assert_eq!(reading.close(), Ok(()));
    assert_eq!(answer(&reading, &head), Some((4, 1_000_001, 1)));
}

fn take_account(reading: &mut Reading, head: &[u8], movement: &[u8], count: u32) {
    assert!(reading.offer(head).is_ok());
    for _ in 0..count {
        assert!(reading.offer(movement).is_ok());
    }
}

#[test]
fn refusals_tell_question_and_column() {
    let failure = |question| Cause::Field(Failure { question, column: 28 });
    let numbers = [Question::Form, Question::Value, Question::Agreement, Question::Limit]
        .map(|question| (failure(question).number(), failure(question).column()));
    assert_eq!(numbers, [(5, 28), (6, 28), (7, 28), (8, 28)]);
}
