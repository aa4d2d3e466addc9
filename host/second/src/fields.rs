//! Fields: what the spaces of a line part, bare or in quotes.

use crate::bytes::{permitted, Line};
use crate::reply::Fault;

/// One field of a line, its quotes left off.
#[derive(Clone, Copy)]
pub struct Field<'a> {
    /// Where its first byte stands in the file.
    pub start: usize,
    /// Its bytes.
    pub bytes: &'a [u8],
    /// Whether it stood in quotes.
    pub quoted: bool,
}

impl<'a> Field<'a> {
    /// The field's bytes if it is bare, as numbers, words and dates must be.
    pub fn bare(&self) -> Option<&'a [u8]> {
        (!self.quoted).then_some(self.bytes)
    }
}

/// The fields of a line from its first, up to broken quoting.
pub struct Fields<'a> {
    line: Line<'a>,
    at: usize,
}

impl<'a> Fields<'a> {
    /// The fields of a line that is no comment, unless a byte in it is forbidden.
    pub fn of(line: Line<'a>) -> Result<Self, Fault> {
        if line.bytes.iter().all(|&byte| permitted(byte)) {
            Ok(Fields { line, at: 0 })
        } else {
            Err(Fault::Byte)
        }
    }
}

impl<'a> Iterator for Fields<'a> {
    type Item = Result<Field<'a>, Fault>;

    fn next(&mut self) -> Option<Self::Item> {
        let rest = self.line.bytes.get(self.at..)?;
        let spaces = rest.iter().position(|&byte| byte != b' ')?;
        let rest = &rest[spaces..];
        let quoted = rest[0] == b'"';
        let length = if quoted { quoted_length(rest) } else { bare_length(rest) };
        let Some(length) = length else {
            self.at = self.line.bytes.len();
            return Some(Err(Fault::Quoting));
        };
        let first = usize::from(quoted);
        let start = self.line.start + self.at + spaces + first;
        self.at += spaces + length + 2 * first;
        Some(Ok(Field { start, bytes: &rest[first..first + length], quoted }))
    }
}

/// The bytes between an opening quote and its closing one, which a space or the line's end follows.
fn quoted_length(rest: &[u8]) -> Option<usize> {
    let length = rest[1..].iter().position(|&byte| byte == b'"')?;
    match rest.get(length + 2) {
        None | Some(b' ') => Some(length),
        Some(_) => None,
    }
}

/// The bytes up to a space or the line's end, none of which is a quote.
fn bare_length(rest: &[u8]) -> Option<usize> {
    match rest.iter().position(|&byte| byte == b' ' || byte == b'"') {
        None => Some(rest.len()),
        Some(length) => (rest[length] == b' ').then_some(length),
    }
}

/// The most fields that any line may have: a drilled hole's.
const MOST: usize = 7;

/// A whole line in fields: those that a line may have at most, and how many it has.
pub struct Split<'a> {
    kept: [Field<'a>; MOST],
    count: usize,
}

impl<'a> Split<'a> {
    /// Splits a line that is neither a comment nor blank.
    pub fn of(line: Line<'a>) -> Result<Self, Fault> {
        let none = Field { start: 0, bytes: &[], quoted: false };
        let mut split = Split { kept: [none; MOST], count: 0 };
        for field in Fields::of(line)? {
            let field = field?;
            if let Some(place) = split.kept.get_mut(split.count) {
                *place = field;
            }
            split.count += 1;
        }
        Ok(split)
    }

    /// The line's first field.
    pub fn first(&self) -> &Field<'a> {
        &self.kept[0]
    }

    /// The fields after the first `lead`, if there are exactly `wanted` of them.
    pub fn exactly(&self, lead: usize, wanted: usize) -> Result<&[Field<'a>], Fault> {
        let fields = (self.count == lead + wanted).then(|| self.kept.get(lead..self.count));
        fields.flatten().ok_or(Fault::Fields)
    }
}
