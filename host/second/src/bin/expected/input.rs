//! Cases as they come: headers in fixed columns, and parts whose lengths the headers name.

use std::fmt::Debug;
use std::ops::Range;
use std::str::FromStr;

use second::Reply;

/// The bytes of a header before the byte 10 that ends it.
const HEADER: usize = 63;

/// What is left of the input.
pub struct Input<'a> {
    rest: &'a [u8],
}

impl<'a> Input<'a> {
    /// All cases.
    pub fn of(bytes: &'a [u8]) -> Self {
        Input { rest: bytes }
    }

    /// Whether another case follows.
    pub fn holds_more(&self) -> bool {
        !self.rest.is_empty()
    }

    /// The next header.
    pub fn header(&mut self) -> Columns<'a> {
        Columns(self.part(HEADER))
    }

    /// The next part of so many bytes; a byte 10 behind it is taken too.
    pub fn part(&mut self, length: usize) -> &'a [u8] {
        let (part, rest) = self.rest.split_at(length);
        self.rest = rest.strip_prefix(b"\n").expect("byte 10 behind a part");
        part
    }
}

/// A header, or an edit, by its columns.
#[derive(Clone, Copy)]
pub struct Columns<'a>(pub &'a [u8]);

impl<'a> Columns<'a> {
    /// A column's text, without the spaces around it.
    pub fn text(self, column: Range<usize>) -> &'a str {
        let bytes = &self.0[column];
        std::str::from_utf8(bytes).expect("a column of text").trim_matches(' ')
    }

    /// A column's number.
    pub fn number<T: FromStr>(self, column: Range<usize>) -> T
    where
        T::Err: Debug,
    {
        self.text(column).parse().expect("a column of a number")
    }

    /// The reply in the columns of its number, line and count.
    pub fn reply(self, [number, line, count]: [Range<usize>; 3]) -> Reply {
        Reply { number: self.number(number), line: self.number(line), count: self.number(count) }
    }
}
