//! The sample volumes of `recall`.

mod common;

use common::{Rows, WAYS, data, read, written};
use twin::carrier::{Carrier, Drawn, Framing, Volume};
use twin::charset::{PAGE_284, PAGE_850, Record};
use twin::fields::{Key, Modality};
use twin::records::Sums;
use twin::rows::{Counts, Notice};

fn recall(tape: &str) -> (Result<Counts, Notice>, Rows) {
    let (disk, tape) = (data("recall/data/holding-1.disk"), data(&format!("recall/data/{tape}")));
    assert_eq!((disk.len(), tape.len()), (574, 640));
    let volume = Volume::lines(&disk, &PAGE_850);
    let mut holding = volume.join(Volume::blocks(&tape, &PAGE_284));
    assert_eq!(holding.volumes(), 2);
    read(&mut holding)
}

const fn counts(accounts: usize, movements: usize, texts: usize) -> Counts {
    Counts { accounts, movements, texts }
}

fn filled(rows: &Rows) -> Counts {
    counts(rows.accounts.len(), rows.movements.len(), rows.texts.len())
}

#[test]
fn the_holding_is_read_and_copied() {
    let (answer, rows) = recall("holding-2.tape");
    assert_eq!(answer, Ok(counts(2, 5, 4)));
    assert_eq!(twin::check_tables(&rows.statement()), Ok(15));
    for (framing, table) in WAYS {
        let copy = written(rows.statement(), framing, table).expect("correct tables");
        assert_eq!(copy.len(), if framing == Framing::Lines { 1230 } else { 1200 });
        let again = read(&mut Volume::new(&copy, table, framing));
        assert_eq!(again, (answer, rows.clone()));
    }
}

#[test]
fn the_accounts_are_those_told() {
    let (_, rows) = recall("holding-2.tape");
    let [first, second] = &rows.accounts[..] else { panic!("two accounts") };
    assert_eq!((first.entity, first.office, first.account), (9999, 1, 1_234_567_890));
    assert_eq!(&first.name, b"CDAD. PE\xA5A MAYOR 12       ");
    assert_eq!((first.first_date, first.last_date, first.currency), (260_301, 260_331, 978));
    assert_eq!((first.movements, first.final_key), (3, Some(Key::Credit)));
    assert_eq!((second.entity, second.office, second.account), (9999, 2, 55));
    assert_eq!(&second.name, b"GARAJE SUR                ");
    assert_eq!((second.first_date, second.last_date, second.currency), (260_301, 260_331, 840));
    assert_eq!((second.movements, second.final_key), (2, Some(Key::Credit)));
    assert_eq!(rows.movements[..3].iter().map(|row| row.texts).sum::<u32>(), 3);
    assert_eq!(rows.movements[3..].iter().map(|row| row.texts).sum::<u32>(), 1);
    for modality in [first.modality, second.modality] {
        assert!(Modality::from_digit(modality.digit()) == Some(modality));
    }
}

#[test]
fn the_sums_are_those_told() {
    let (_, rows) = recall("holding-2.tape");
    let sums = |account: usize, own: std::ops::Range<usize>| {
        let row = &rows.accounts[account];
        let mut sums = Sums::new(row.initial_key, row.initial_balance);
        let initial = sums.balance;
        rows.movements[own].iter().for_each(|row| sums.add(row.key, row.amount));
        let (debits, credits) = (sums.debits, sums.credits);
        (initial, debits.count, debits.total, credits.count, credits.total, sums.balance)
    };
    assert_eq!(sums(0, 0..3), (250_000, 2, 60_250, 1, 12_000, 201_750));
    assert_eq!(sums(1, 3..5), (-1_000, 1, 250, 1, 500_000, 498_750));
}

#[test]
fn the_damaged_holding_names_its_place() {
    let (answer, rows) = recall("damaged-2.tape");
    let notice = Notice { layer: 1, number: 22, record: 10, place: 193, volume: 2 };
    assert_eq!((answer, filled(&rows)), (Err(notice), counts(2, 3, 3)));
}

#[test]
fn the_altered_holding_names_its_column() {
    let (answer, rows) = recall("altered-2.tape");
    let notice = Notice { layer: 2, number: 7, record: 8, place: 60, volume: 0 };
    assert_eq!((answer, filled(&rows)), (Err(notice), counts(1, 3, 3)));
}

#[test]
fn nothing_is_drawn_after_a_refusal() {
    let tape = data("recall/data/altered-2.tape");
    let disk = data("recall/data/holding-1.disk");
    let volume = Volume::lines(&disk, &PAGE_850);
    let mut holding = volume.join(Volume::blocks(&tape, &PAGE_284));
    assert!(read(&mut holding).0.is_err());
    let (mut record, mut left) = (Record::blank(), 0);
    while holding.draw(&mut record) == Drawn::Record {
        left += 1;
    }
    assert_eq!(left, 15 - 8);
}
