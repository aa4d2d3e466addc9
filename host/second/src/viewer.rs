//! The viewer's line reader: one line's fields at a time, by bytes and quoting alone.

use crate::bytes::{Line, Lines, LARGEST_FILE};
use crate::fields::Fields;
use crate::reply::{Fault, Reply};

/// A reader opened over a file, which hands out the fields of the next line at each call.
#[derive(Clone)]
pub struct Reader<'a> {
    lines: Lines<'a>,
    oversize: bool,
}

impl<'a> Reader<'a> {
    /// Opens a reader before the first line; a file over the size limit is refused by `next`.
    pub fn open(file: &'a [u8]) -> Self {
        Reader { lines: Lines::of(file), oversize: file.len() > LARGEST_FILE }
    }

    /// Writes start and length of each field of the next line; the count is its fields.
    ///
    /// Moves on after 0, 3 and 4 only, and changes `room` after 0 only.
    pub fn next(&mut self, room: &mut [i64]) -> Reply {
        if self.oversize {
            return Reply::OVERSIZE;
        }
        let mut after = self.lines.clone();
        let Some(line) = after.next() else {
            return Reply::too_early(self.lines.next_number());
        };
        let reply = hand_out(line, room);
        if reply.number != 2 {
            self.lines = after;
        }
        reply
    }
}

/// Writes a line's fields into the lent slice, if they are good and there is room for all.
fn hand_out(line: Line, room: &mut [i64]) -> Reply {
    let count = match count_fields(line) {
        Ok(count) => count,
        Err(fault) => return Reply::fault(fault, line.number),
    };
    if count > room.len() / 2 {
        return Reply::few_rows(count as u64);
    }
    if count > 0 {
        let fields = Fields::of(line).into_iter().flatten().flatten();
        for (lent, field) in room.chunks_exact_mut(2).zip(fields) {
            lent.copy_from_slice(&[field.start as i64, field.bytes.len() as i64]);
        }
    }
    Reply::done(count as u64)
}

/// How many fields a line has; a comment or blank line has none.
fn count_fields(line: Line) -> Result<usize, Fault> {
    if line.is_free() {
        return Ok(0);
    }
    Fields::of(line)?.try_fold(0, |count, field| field.map(|_| count + 1))
}

#[cfg(test)]
mod tests {
    use super::*;

    #[test]
    fn no_field_holds_a_byte_of_the_line_end() {
        let mut reader = Reader::open(b"a \"b c\"\r\n\r\nd\r\n");
        let mut room = [-1; 4];
        assert_eq!((reader.next(&mut room), room), (Reply::done(2), [0, 1, 3, 3]));
        assert_eq!((reader.next(&mut room), room), (Reply::done(0), [0, 1, 3, 3]));
        assert_eq!((reader.next(&mut room), room), (Reply::done(1), [11, 1, 3, 3]));
        assert_eq!(reader.next(&mut room), Reply::too_early(4));
    }
}
