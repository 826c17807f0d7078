//! Statements at random, right and damaged: what is told of them has to hang together.

mod common;

use common::generator::Random;
use common::{Rows, WAYS, read, read_into, read_lines, written};
use twin::carrier::{Framing, Image, Volume};
use twin::charset::PAGE_850;
use twin::fields::{Key, Modality};
use twin::reading::Reading;
use twin::records::MAXIMUM;
use twin::rows::{AccountRow, Counts, MovementRow, Notice, Tables, TextRow};

const RUNS: u64 = 300;

fn lines_of(rows: &Rows) -> Vec<u8> {
    written(rows.statement(), Framing::Lines, &PAGE_850).expect("a statement in order")
}

#[test]
fn statements_are_written_and_read_back() {
    for run in 0..RUNS {
        let rows = Random::new(run).rows();
        for (framing, table) in WAYS {
            let bytes = written(rows.statement(), framing, table).expect("a statement in order");
            let (answer, again) = read(&mut Volume::new(&bytes, table, framing));
            assert!(answer.is_ok(), "{run}: {answer:?}");
            assert_eq!(again, rows, "{run}");
            assert_eq!(written(again.statement(), framing, table), Ok(bytes), "{run}");
        }
    }
}

/// Reads damaged lines: they are refused, with what was before left in the tables, or they
/// are other tables that write these lines.
fn judge(damaged: &[u8], whole: &Rows) -> bool {
    let (answer, rows) = read_lines(damaged);
    let Err(notice) = answer else {
        assert_ne!(rows, *whole);
        assert_eq!(lines_of(&rows), damaged);
        return false;
    };
    assert!(matches!(notice.layer, 1 | 2));
    assert_eq!(u16::from(notice.layer == 1), notice.volume);
    let before = (notice.record as usize - 1) * 82;
    let (short, rows_before) = read_lines(&damaged[..before]);
    assert_eq!(rows_before, rows);
    let early = Notice { layer: 2, number: 9, place: 0, volume: 0, ..notice };
    match short {
        Ok(_) => assert!(damaged[before - 82..].starts_with(b"88")),
        Err(short) => assert_eq!(short, early),
    }
    if notice.layer == 2 {
        assert_eq!(offered(damaged), notice);
    } else {
        assert!((before..before + 82).contains(&(notice.place as usize)));
    }
    true
}

/// What a reading tells of the lines, offer by offer.
fn offered(lines: &[u8]) -> Notice {
    let mut reading = Reading::new();
    let refused = lines.chunks(82).find_map(|line| reading.offer(&line[..80]).err());
    refused.or(reading.close().err()).expect("a refusal").into()
}

#[test]
fn a_damaged_byte_is_refused_or_changes_the_tables() {
    let (mut refused, mut changed) = (0, 0);
    for run in 0..RUNS {
        let mut random = Random::new(1_000 + run);
        let rows = random.rows();
        let bytes = lines_of(&rows);
        for _ in 0..40 {
            let mut damaged = bytes.clone();
            let place = random.index(bytes.len());
            damaged[place] =
                if random.one_in(4) { random.next() as u8 } else { random.pick(b"0123456789 ") };
            if damaged[place] == bytes[place] {
                continue;
            }
            if judge(&damaged, &rows) {
                refused += 1;
            } else {
                changed += 1;
            }
        }
    }
    assert!(refused > 4_000 && changed > 1_000, "{refused} refused, {changed} changed");
}

#[test]
fn damaged_lines_are_refused_or_change_the_tables() {
    for run in 0..RUNS {
        let mut random = Random::new(2_000 + run);
        let rows = random.rows();
        let bytes = lines_of(&rows);
        for _ in 0..10 {
            let damaged = damaged_lines(&bytes, &mut random);
            if damaged != bytes {
                judge(&damaged, &rows);
            }
        }
    }
}

fn damaged_lines(bytes: &[u8], random: &mut Random) -> Vec<u8> {
    let mut lines: Vec<&[u8]> = bytes.chunks(82).collect();
    let (one, other) = (random.index(lines.len()), random.index(lines.len()));
    match random.below(4) {
        0 => lines.swap(one, other),
        1 => drop(lines.remove(one)),
        2 => lines.insert(other, lines[one]),
        _ => return bytes[..random.index(bytes.len())].to_vec(),
    }
    lines.concat()
}

#[test]
fn tables_too_small_by_a_row_are_refused() {
    for run in 0..RUNS {
        let rows = Random::new(3_000 + run).rows();
        let bytes = lines_of(&rows);
        let whole = Counts {
            accounts: rows.accounts.len(),
            movements: rows.movements.len(),
            texts: rows.texts.len(),
        };
        let read = |counts| read_into(&mut Volume::lines(&bytes, &PAGE_850), counts).0;
        assert_eq!(read(whole), Ok(whole));
        let last = |code: &[u8]| {
            let before = bytes.chunks(82).rposition(|line| line.starts_with(code));
            before.map(|before| before as u32 + 1)
        };
        let short = |accounts, movements, texts| Counts {
            accounts: whole.accounts - accounts,
            movements: whole.movements - movements,
            texts: whole.texts - texts,
        };
        let no_row = |record, table| Err(Notice::of_tables(31, record, table));
        assert_eq!(read(short(1, 0, 0)), no_row(last(b"11").expect("an account"), 1));
        if let Some(record) = last(b"22") {
            assert_eq!(read(short(0, 1, 0)), no_row(record, 2));
        }
        if let Some(record) = last(b"23") {
            assert_eq!(read(short(0, 0, 1)), no_row(record, 3));
        }
    }
}

#[test]
fn rows_that_are_not_filled_stay_untouched() {
    let mut random = Random::new(7);
    let rows = random.rows();
    let bytes = lines_of(&rows);
    let strange = AccountRow { entity: u32::MAX, name: [0; 26], ..AccountRow::default() };
    let movement = MovementRow { texts: u32::MAX, ..MovementRow::default() };
    let text = TextRow { first: [1; 38], second: [2; 38] };
    for length in (0..=bytes.len()).step_by(41) {
        let mut accounts = vec![strange.clone(); 50];
        let mut movements = vec![movement.clone(); 100];
        let mut texts = vec![text.clone(); 300];
        let mut tables = Tables::new(&mut accounts, &mut movements, &mut texts);
        let answer = twin::read(&mut Volume::lines(&bytes[..length], &PAGE_850), &mut tables);
        assert_eq!(answer.is_ok(), length == bytes.len());
        let counts = tables.counts();
        assert!(accounts[counts.accounts..].iter().all(|row| *row == strange));
        assert!(movements[counts.movements..].iter().all(|row| *row == movement));
        assert!(texts[counts.texts..].iter().all(|row| *row == text));
    }
}

#[test]
fn an_image_keeps_what_it_is_not_told_to_write() {
    for run in 0..RUNS {
        let rows = Random::new(4_000 + run).rows();
        for (framing, table) in WAYS {
            let whole = written(rows.statement(), framing, table).expect("a statement in order");
            let mut short = vec![7; whole.len() - 1];
            let mut image = Image::new(&mut short, table, framing);
            let answer = twin::write(&rows.statement(), &mut image);
            assert_eq!(answer, Err(Notice::of_tables(34, 0, 0)));
            assert_eq!(image.written(), 0);
            assert!(short.iter().all(|&byte| byte == 7));
            let mut long = vec![7; whole.len() + 100];
            let mut image = Image::new(&mut long, table, framing);
            assert!(twin::write(&rows.statement(), &mut image).is_ok());
            assert_eq!(image.written(), whole.len());
            assert_eq!(long[..whole.len()], whole);
            assert!(long[whole.len()..].iter().all(|&byte| byte == 7));
        }
    }
}

#[test]
fn a_second_statement_stands_behind_the_first() {
    let (one, other) = (Random::new(21).rows(), Random::new(22).rows());
    let whole = [lines_of(&one), lines_of(&other)].concat();
    let mut bytes = vec![7; whole.len()];
    let mut image = Image::lines(&mut bytes, &PAGE_850);
    assert!(twin::write(&one.statement(), &mut image).is_ok());
    assert!(twin::write(&other.statement(), &mut image).is_ok());
    assert_eq!(twin::write(&one.statement(), &mut image), Err(Notice::of_tables(34, 0, 0)));
    assert_eq!(bytes, whole);
}

/// Changes one field of one row.
fn damage(rows: &mut Rows, random: &mut Random) {
    let number = if random.one_in(4) {
        MAXIMUM - random.below(1_000)
    } else {
        random.next() >> random.below(64)
    };
    let count = rows.movements.len() + rows.texts.len();
    if random.one_in(3) || count == 0 {
        return damage_account(rows, random, number);
    }
    if random.one_in(8) && !rows.texts.is_empty() {
        let at = random.index(rows.texts.len());
        rows.texts[at].second[random.index(38)] = number as u8;
    } else if !rows.movements.is_empty() {
        damage_movement(rows, random, number);
    }
}

fn damage_account(rows: &mut Rows, random: &mut Random, number: u64) {
    let at = random.index(rows.accounts.len());
    let row = &mut rows.accounts[at];
    let small = number as u32;
    match random.below(13) {
        0 => row.entity = small,
        1 => row.office = small,
        2 => row.account = number,
        3 => row.first_date = small,
        4 => row.last_date = small,
        5 => row.initial_key = random.key(),
        6 => row.initial_balance = number,
        7 => row.currency = small,
        8 => row.modality = random.pick(&[Modality::One, Modality::Two, Modality::Three]),
        9 => row.name[random.index(26)] = number as u8,
        10 => row.movements = small,
        11 => row.final_key = random.pick(&[None, Some(Key::Debit), Some(Key::Credit)]),
        _ => drop(rows.accounts.remove(at)),
    }
}

fn damage_movement(rows: &mut Rows, random: &mut Random, number: u64) {
    let at = random.index(rows.movements.len());
    let row = &mut rows.movements[at];
    let small = number as u32;
    match random.below(14) {
        0 => row.origin_office = random.pick(&[None, Some(small)]),
        1 => row.operation_date = small,
        2 => row.value_date = small,
        3 => row.common_concept = small,
        4 => row.own_concept = small,
        5 => row.key = random.key(),
        6 => row.amount = number,
        7 => row.document = number,
        8 => row.reference_1 = random.pick(&[None, Some(number)]),
        9 => row.reference_2[random.index(16)] = number as u8,
        10 => row.texts = small,
        11 => row.equivalent = None,
        12 => row.equivalent.iter_mut().for_each(|equivalent| equivalent.currency = small),
        _ => row.equivalent.iter_mut().for_each(|equivalent| equivalent.amount = number),
    }
}

#[test]
fn damaged_rows_are_refused_or_read_back() {
    let mut seen = [0; 40];
    for run in 0..4_000 {
        let mut random = Random::new(5_000 + run);
        let mut rows = random.rows();
        damage(&mut rows, &mut random);
        let mut bytes = vec![7; 200 * 82];
        let mut image = Image::lines(&mut bytes, &PAGE_850);
        let answer = twin::write(&rows.statement(), &mut image);
        let length = image.written();
        match answer {
            Ok(records) => {
                assert_eq!(length, records as usize * 82);
                assert_eq!(read_lines(&bytes[..length]).1, rows, "{run}");
            }
            Err(notice) => {
                assert!(length == 0 && bytes.iter().all(|&byte| byte == 7));
                assert_eq!(twin::check_tables(&rows.statement()), Err(notice));
                assert!(foreseen(notice), "{run}: {notice:?}");
                seen[notice.number as usize] += 1;
            }
        }
    }
    for number in [2, 4, 5, 6, 7, 8, 32, 33] {
        assert!(seen[number] > 0, "{number} is not met");
    }
}

/// The answers that docs/REFUSALS.md lists for tables.
fn foreseen(notice: Notice) -> bool {
    const WIDE: [u64; 15] = [3, 5, 7, 8, 11, 17, 21, 23, 25, 27, 29, 34, 43, 48, 53];
    let Notice { layer, number, record, place, volume } = notice;
    volume == 0
        && match (layer, number) {
            (3, 32) => record == 0 && matches!(place, 1 | 2),
            (3, 33) => record > 0 && WIDE.contains(&place),
            (2, 5) => record > 1 && matches!(place, 7 | 53 | 65),
            (2, 2 | 4 | 6 | 7 | 8) => record > 0,
            _ => false,
        }
}

#[test]
fn counts_are_asked_in_their_order() {
    let rows = Random::new(11).rows();
    let told = |rows: &Rows| twin::check_tables(&rows.statement());
    let mut wrong = rows.clone();
    wrong.texts.push(TextRow::default());
    assert_eq!(told(&wrong), Err(Notice::of_tables(32, 0, 2)));
    wrong.accounts[0].movements += 1;
    assert_eq!(told(&wrong), Err(Notice::of_tables(32, 0, 1)));
    wrong.accounts.iter_mut().for_each(|row| row.movements = u32::MAX);
    assert_eq!(told(&wrong), Err(Notice::of_tables(32, 0, 1)));
}

#[test]
fn empty_tables_meet_the_file_end() {
    let refused = Notice { layer: 2, number: 4, record: 1, place: 1, volume: 0 };
    assert_eq!(twin::check_tables(&Rows::default().statement()), Err(refused));
}

#[test]
fn a_sixth_text_is_refused_by_its_order() {
    let mut random = Random::new(12);
    let mut rows = std::iter::repeat_with(|| random.rows())
        .find(|rows| rows.movements.first().is_some_and(|row| row.texts == 5))
        .expect("a movement with five texts");
    let before = rows.accounts.iter().take_while(|row| row.movements == 0).count() as u32 * 2;
    rows.texts.insert(5, TextRow::default());
    rows.movements[0].texts = 6;
    let refused = Notice { layer: 2, number: 4, record: before + 8, place: 1, volume: 0 };
    assert_eq!(twin::check_tables(&rows.statement()), Err(refused));
}
