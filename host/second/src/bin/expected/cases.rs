//! The cases of crates/run_cases: what `check` and `read` answer on a file, and its rows.

use second::{check, read, STRIDE};

use crate::input::Input;
use crate::sheet::{handed_out, Sheet};

/// The most numbers that are lent.
const NUMBERS: usize = 8_192;
/// What lent numbers hold before.
const MARK: i64 = 7_777_777;

/// Runs the next case.
pub fn run(input: &mut Input, sheet: &mut Sheet) {
    let head = input.header();
    let file = input.part(head.number(43..49));
    let (name, expected) = (head.text(0..32), head.reply([49..52, 52..58, 58..63]));
    match head.text(32..37) {
        "check" => sheet.replies(name, check(file), expected),
        "read" => {
            let mut lent = vec![MARK; head.number::<usize>(37..43).min(NUMBERS)];
            let came = read(file, &mut lent);
            sheet.replies(name, came, expected);
            push_rows(&lent, handed_out(came), sheet);
        }
        other => panic!("{name}: {other} is no operation"),
    }
}

/// Adds the rows in lent numbers, a line each, and that the numbers behind them are as they were.
fn push_rows(lent: &[i64], count: usize, sheet: &mut Sheet) {
    let (rows, rest) = lent.split_at(count * STRIDE);
    for row in rows.chunks(STRIDE) {
        let numbers: Vec<String> = row.iter().map(i64::to_string).collect();
        sheet.line(&numbers.join(" "));
    }
    assert!(rest.iter().all(|&number| number == MARK), "written past the rows");
    sheet.line("untouched");
}
