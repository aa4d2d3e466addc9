//! Rows as a claim: whether rows over lent bytes have the meaning of some acceptable file, and lines
//! that rise.

use crate::bytes::permitted;
use crate::kinds::{Kind, Type};
use crate::numbers::{is_date, LARGEST_INTEGER, LARGEST_NUMBER, VERSION};
use crate::reading::names_board;
use crate::rows::{range, Row, Used, LINE, WIDTH};
use crate::state::State;

/// Whether rows over bytes mean an acceptable file, size aside, and their lines rise from 1 or more.
pub fn acceptable<'r>(rows: impl Iterator<Item = &'r Row>, bytes: &[u8]) -> bool {
    let texts = Texts::over(bytes);
    let mut state = State::new();
    let mut used = Used::default();
    let mut last_line = 0;
    for row in rows {
        let Some(kind) = Kind::of_number(row[0]) else {
            return false;
        };
        let good = row[LINE] > last_line
            && fits(kind, row, &texts, &state)
            && state.may_stand(kind)
            && state.take(kind, row).is_ok()
            && used.admits(row, bytes);
        if !good {
            return false;
        }
        last_line = row[LINE];
    }
    state.complete()
}

/// Whether every column of a row's record is one that its kind allows.
fn fits(kind: Kind, row: &Row, texts: &Texts, state: &State) -> bool {
    let mut rest = &row[1..WIDTH];
    for &wanted in kind.layout() {
        let (columns, after) = rest.split_at(wanted.columns());
        if !allows(wanted, columns, texts, state) {
            return false;
        }
        rest = after;
    }
    rest.iter().all(|&column| column == 0)
}

/// Whether the columns of one field hold a value that the field allows.
fn allows(wanted: Type, columns: &[i64], texts: &Texts, state: &State) -> bool {
    let value = columns[0];
    match wanted {
        Type::Word(list) => usize::try_from(value).is_ok_and(|place| place < list.len()),
        Type::Integer => (-LARGEST_INTEGER..=LARGEST_INTEGER).contains(&value),
        Type::Version => value == VERSION,
        Type::Number(limit) => {
            (-LARGEST_NUMBER..=LARGEST_NUMBER).contains(&value) && limit.allows(value)
        }
        Type::Date => texts.at(columns).is_some_and(is_date),
        Type::Text | Type::HolePart => texts.at(columns).is_some(),
        Type::Reference => {
            texts.at(columns).is_some_and(|text| !state.is_board() || !names_board(text))
        }
    }
}

/// Lent bytes with the places of those that no text may hold, so that a text is judged at once
/// however long it is and however often it is named.
struct Texts<'a> {
    bytes: &'a [u8],
    stops: Vec<usize>,
}

impl<'a> Texts<'a> {
    fn over(bytes: &'a [u8]) -> Self {
        let stop = |byte: u8| byte == b'"' || !permitted(byte);
        let places = bytes.iter().enumerate();
        Texts { bytes, stops: places.filter(|(_, &byte)| stop(byte)).map(|(at, _)| at).collect() }
    }

    /// The text that two columns name, if it lies in the bytes and holds no byte that it may not.
    fn at(&self, columns: &[i64]) -> Option<&'a [u8]> {
        let range = range(columns[0], columns[1], self.bytes.len())?;
        let before = self.stops.partition_point(|&stop| stop < range.start);
        let broken = self.stops.get(before).is_some_and(|&stop| stop < range.end);
        (!broken).then(|| &self.bytes[range])
    }
}
