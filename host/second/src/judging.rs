//! Judging: whether a library holds an entry for every placement of a board or panel.

use std::collections::HashMap;

use crate::kinds::{Type, BOARD_NAME, LIBRARY_FILE, NOREFDES};
use crate::reading;
use crate::reply::Reply;
use crate::rows::{pair, text, Pair, Row, ELECTRICAL_LINE, MECHANICAL_LINE, PACKAGE_LINE};

/// Judges a board or panel by a library; the count is its placements, the second part which file
/// was refused.
pub fn judge(board: &[u8], library: &[u8]) -> (Reply, u64) {
    let board_rows = match reading::rows(board) {
        Ok(rows) => rows,
        Err(reply) => return (reply, 1),
    };
    let library_rows = match reading::rows(library) {
        Ok(rows) => rows,
        Err(reply) => return (reply, 2),
    };
    if is_library(&board_rows) {
        return (Reply::WRONG_KIND, 1);
    }
    if !is_library(&library_rows) {
        return (Reply::WRONG_KIND, 2);
    }
    let entries = entries(&library_rows, library);
    let mut count = 0;
    for row in board_rows.iter().filter(|row| row[0] == PACKAGE_LINE) {
        count += 1;
        let entry = entries.get(&pair(row, board)).copied();
        if entry_wanted(text(row, 5, board)).is_some_and(|wanted| entry != Some(wanted)) {
            return (Reply::no_entry(count), 1);
        }
    }
    (Reply::done(count), 0)
}

/// Whether an accepted file's rows are a library's, by the file type in its second row.
fn is_library(rows: &[Row]) -> bool {
    rows.get(1).is_some_and(|row| row[1] == LIBRARY_FILE)
}

/// The kind of each entry by its geometry and part; no two entries share both.
fn entries<'a>(rows: &[Row], library: &'a [u8]) -> HashMap<Pair<'a>, i64> {
    let components = rows.iter().filter(|row| matches!(row[0], ELECTRICAL_LINE | MECHANICAL_LINE));
    components.map(|row| (pair(row, library), row[0])).collect()
}

/// The kind of entry that a reference wants by what it means, if any.
fn entry_wanted(reference: &[u8]) -> Option<i64> {
    let meant = Type::Reference.meant(reference);
    if meant == BOARD_NAME.as_bytes() {
        None
    } else if meant == NOREFDES.as_bytes() {
        Some(MECHANICAL_LINE)
    } else {
        Some(ELECTRICAL_LINE)
    }
}
