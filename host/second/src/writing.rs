//! Writing: the canonical text of rows, and of an accepted file.

use crate::acceptable::acceptable;
use crate::bytes::LARGEST_FILE;
use crate::kinds::{Kind, Type};
use crate::numbers::{push_integer, push_number};
use crate::reading;
use crate::reply::Reply;
use crate::rows::{text, Row, STRIDE};

/// Writes the canonical text of every whole row; `out` stays untouched unless the reply is 0.
pub fn write(rows: &[i64], text: &[u8], out: &mut [u8]) -> Reply {
    let rows = || rows.chunks_exact(STRIDE).filter_map(|row| <&Row>::try_from(row).ok());
    if !acceptable(rows(), text) {
        return Reply::MEANINGLESS;
    }
    let Some(canonical) = canonical(rows(), text) else {
        return Reply::OVERSIZE;
    };
    let length = canonical.len();
    match out.get_mut(..length) {
        None => Reply::short_text(length as u64),
        Some(lent) => {
            lent.copy_from_slice(&canonical);
            Reply::done(length as u64)
        }
    }
}

/// The canonical text of an accepted file; refused like the file, or with 1 if it is too long.
pub fn canon(file: &[u8]) -> Result<Vec<u8>, Reply> {
    canonical(reading::rows(file)?.iter(), file).ok_or(Reply::OVERSIZE)
}

/// The canonical text of acceptable rows, unless it is over the size limit.
fn canonical<'r>(rows: impl Iterator<Item = &'r Row>, bytes: &[u8]) -> Option<Vec<u8>> {
    let mut out = Vec::new();
    for row in rows {
        push_line(row, bytes, &mut out)?;
    }
    Some(out)
}

/// Adds one line; nothing comes back once the text is over the limit.
fn push_line(row: &Row, bytes: &[u8], out: &mut Vec<u8>) -> Option<()> {
    let kind = Kind::of_number(row[0])?;
    let lead = kind.lead();
    for part in lead.iter().flatten() {
        out.extend_from_slice(part.as_bytes());
    }
    let mut column = 1;
    for &wanted in kind.layout() {
        if column > 1 || lead.is_some() {
            out.push(b' ');
        }
        push_field(wanted, row, column, bytes, out)?;
        column += wanted.columns();
    }
    out.push(b'\n');
    (out.len() <= LARGEST_FILE).then_some(())
}

/// Adds one field in its canonical spelling.
fn push_field(
    wanted: Type,
    row: &Row,
    column: usize,
    bytes: &[u8],
    out: &mut Vec<u8>,
) -> Option<()> {
    let value = row[column];
    match wanted {
        Type::Word(list) => {
            let word = list.get(usize::try_from(value).ok()?)?;
            out.extend_from_slice(word.as_bytes());
        }
        Type::Version => out.extend_from_slice(b"3.0"),
        Type::Number(_) => push_number(value, out),
        Type::Integer => push_integer(value, out),
        Type::Date | Type::Text | Type::Reference | Type::HolePart => {
            push_text(wanted.meant(text(row, column, bytes)), out)?;
        }
    }
    Some(())
}

/// Adds a text, in quotes where document 01 asks for them; one too long by itself is not copied.
fn push_text(text: &[u8], out: &mut Vec<u8>) -> Option<()> {
    if text.len() > LARGEST_FILE {
        return None;
    }
    let quoted = matches!(text.first(), None | Some(b'#' | b'.')) || text.contains(&b' ');
    if quoted {
        out.push(b'"');
    }
    out.extend_from_slice(text);
    if quoted {
        out.push(b'"');
    }
    Some(())
}
