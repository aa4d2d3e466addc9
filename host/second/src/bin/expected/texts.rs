//! The cases of crates/run_texts: what `write` answers on the edited rows of a file, and the text.

use second::{read, write, STRIDE};

use crate::input::{Columns, Input};
use crate::sheet::{handed_out, Sheet};

/// How many numbers there are for the rows of a file: its own, and zeros behind them.
const NUMBERS: usize = 8_192;
/// The most bytes that are lent.
const BYTES: usize = 4_096;
/// What lent bytes hold before; no text has it.
const MARK: u8 = 7;
/// The bytes of an edit before the byte 10 that ends it.
const EDIT: usize = 31;

/// Runs the next case.
pub fn run(input: &mut Input, sheet: &mut Sheet) {
    let head = input.header();
    let edits: Vec<Columns> =
        (0..head.number(35..38)).map(|_: u8| Columns(input.part(EDIT))).collect();
    let file = input.part(head.number(43..49));
    let name = head.text(0..30);
    let mut rows = vec![0; NUMBERS];
    assert_eq!(read(file, &mut rows).number, 0, "{name}: its file is refused");
    for edit in edits {
        make(edit, &mut rows);
    }
    let lent_rows = &rows[..head.number::<usize>(30..35).min(NUMBERS)];
    let mut lent = vec![MARK; head.number::<usize>(38..43).min(BYTES)];
    let came = write(lent_rows, file, &mut lent);
    sheet.replies(name, came, head.reply([49..52, 52..54, 54..63]));
    let (text, rest) = lent.split_at(handed_out(came));
    sheet.bytes(text);
    assert!(rest.iter().all(|&byte| byte == MARK), "{name}: written past the text");
    sheet.line("untouched");
}

/// Puts an edit's number into its column of each row from its first to its last.
fn make(edit: Columns, rows: &mut [i64]) {
    let (first, last): (usize, usize) = (edit.number(0..4), edit.number(4..8));
    let column: usize = edit.number(8..11);
    for row in first..=last {
        rows[(row - 1) * STRIDE + column - 1] = edit.number(11..31);
    }
}
