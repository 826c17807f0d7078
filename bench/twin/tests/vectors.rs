//! The outside cases of `check`.

mod common;

use common::{WAYS, data, read, read_lines, translated, written};
use twin::carrier::Volume;

const CASES: usize = 203;

fn cases() -> impl Iterator<Item = (usize, Vec<u8>, String)> {
    let expected = String::from_utf8(data("vectors/data/expected")).expect("text");
    let lines: Vec<String> = expected.lines().map(|line| format!("{line}\n")).collect();
    assert_eq!(lines.len(), CASES);
    lines
        .into_iter()
        .enumerate()
        .map(|(case, line)| (case, data(&format!("vectors/data/{case:03}.c43")), line))
}

#[test]
fn all_cases_print_the_expected_line() {
    let different: Vec<String> = cases()
        .filter(|(_, input, expected)| twin::check(input) != *expected)
        .map(|(case, input, expected)| {
            format!("{case:03} expected {expected}    printed  {}", twin::check(&input))
        })
        .collect();
    assert!(different.is_empty(), "{} differ:\n{}", different.len(), different.concat());
}

#[test]
fn the_sample_of_check_prints_its_line() {
    let printed = twin::check(&data("check_statement/stdin"));
    assert_eq!(printed.into_bytes(), data("check_statement/stdout"));
}

#[test]
fn correct_cases_are_written_as_they_were_read() {
    let mut correct = 0;
    for (case, input, expected) in cases() {
        if !expected.starts_with(" 0  0") {
            continue;
        }
        correct += 1;
        let (answer, rows) = read_lines(&input);
        assert!(answer.is_ok(), "{case}");
        for (framing, table) in WAYS {
            let bytes = written(rows.statement(), framing, table).expect("correct tables");
            assert_eq!(bytes, translated(&input, framing, table), "{case}");
            let again = read(&mut Volume::new(&bytes, table, framing));
            assert_eq!(again, (answer, rows.clone()), "{case}");
        }
    }
    assert_eq!(correct, 16);
}

#[test]
fn refused_cases_are_refused_alike_on_every_medium() {
    for (case, input, expected) in cases() {
        if !expected.starts_with(" 2") {
            continue;
        }
        let lines = read_lines(&input);
        // The rest of the volume may be damaged: only what was drawn is compared.
        let drawn = lines.0.expect_err("a refusal").record as usize * 82;
        let drawn = &input[..drawn.min(input.len())];
        for (framing, table) in WAYS {
            let bytes = translated(drawn, framing, table);
            assert_eq!(read(&mut Volume::new(&bytes, table, framing)), lines, "{case}");
        }
    }
}
