//! Rows: the numbers that a line gives, the texts they point at, and the pairs that name parts.

use std::collections::HashSet;
use std::ops::Range;

/// How many numbers make a record: the kind, then the columns of its fields.
pub const WIDTH: usize = 10;

/// Where in a row the line stands that the record came from, counted from 1.
pub const LINE: usize = WIDTH;

/// How many numbers of a slice a row takes: its record's and its line's.
pub const STRIDE: usize = WIDTH + 1;

/// One row: a record and its line.
pub type Row = [i64; STRIDE];

/// The kind of a placement's first line: package, part and reference.
pub const PACKAGE_LINE: i64 = 131;
/// The kind of an electrical component's first line: geometry and part.
pub const ELECTRICAL_LINE: i64 = 141;
/// The kind of a mechanical component's first line: geometry and part.
pub const MECHANICAL_LINE: i64 = 151;

/// The places that a start and a length name, if all of them are within `size`.
pub fn range(start: i64, length: i64, size: usize) -> Option<Range<usize>> {
    let start = usize::try_from(start).ok()?;
    let end = start.checked_add(usize::try_from(length).ok()?)?;
    (end <= size).then_some(start..end)
}

/// The text whose start stands in a column of a row made from these bytes.
pub fn text<'a>(row: &Row, column: usize, bytes: &'a [u8]) -> &'a [u8] {
    range(row[column], row[column + 1], bytes.len()).map_or(&[], |range| &bytes[range])
}

/// The two texts that name a component, or the component that a placement wants.
pub type Pair<'a> = (&'a [u8], &'a [u8]);

/// The pair in a row whose first two fields are texts.
pub fn pair<'a>(row: &Row, bytes: &'a [u8]) -> Pair<'a> {
    (text(row, 1, bytes), text(row, 3, bytes))
}

/// The pairs of geometry and part that a library has used so far.
#[derive(Default)]
pub struct Used<'a>(HashSet<Pair<'a>>);

impl<'a> Used<'a> {
    /// Whether the row names no component, or one by a new pair, which from then on is used.
    pub fn admits(&mut self, row: &Row, bytes: &'a [u8]) -> bool {
        !matches!(row[0], ELECTRICAL_LINE | MECHANICAL_LINE) || self.0.insert(pair(row, bytes))
    }
}
