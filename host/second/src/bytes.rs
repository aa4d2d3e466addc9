//! Bytes and lines: which bytes may stand in a line, where a line ends, and the size limit.

/// The most bytes that a file, or a text to be written, may have.
pub const LARGEST_FILE: usize = 16_777_216;

/// Whether a byte may stand in a line that is no comment.
pub fn permitted(byte: u8) -> bool {
    matches!(byte, 32..=126 | 128..=255)
}

/// One line of a file, without the bytes that end it: 10, or 13 and 10.
#[derive(Clone, Copy)]
pub struct Line<'a> {
    /// The line's number, from 1.
    pub number: u64,
    /// Where its first byte stands in the file.
    pub start: usize,
    /// Its bytes.
    pub bytes: &'a [u8],
}

impl Line<'_> {
    /// Whether the line is a comment or blank, and so has no fields.
    pub fn is_free(&self) -> bool {
        self.bytes.first() == Some(&b'#') || self.bytes.iter().all(|&byte| byte == b' ')
    }
}

/// The lines of a file from its first; nothing after the last byte 10 makes no line.
#[derive(Clone)]
pub struct Lines<'a> {
    file: &'a [u8],
    next: usize,
    taken: u64,
}

impl<'a> Lines<'a> {
    /// All lines of a file.
    pub fn of(file: &'a [u8]) -> Self {
        Lines { file, next: 0, taken: 0 }
    }

    /// The number that the next line has, or would have if there were one.
    pub fn next_number(&self) -> u64 {
        self.taken + 1
    }
}

impl<'a> Iterator for Lines<'a> {
    type Item = Line<'a>;

    fn next(&mut self) -> Option<Line<'a>> {
        let start = self.next;
        let rest = self.file.get(start..).filter(|rest| !rest.is_empty())?;
        let (bytes, whole) = first_line(rest);
        self.next = start + whole;
        self.taken += 1;
        Some(Line { number: self.taken, start, bytes })
    }
}

/// The bytes of the first line, and how many it has with its end. A byte 13 belongs to the end only
/// directly before a byte 10.
fn first_line(rest: &[u8]) -> (&[u8], usize) {
    match rest.iter().position(|&byte| byte == 10) {
        None => (rest, rest.len()),
        Some(end) => (rest[..end].strip_suffix(&[13]).unwrap_or(&rest[..end]), end + 1),
    }
}

#[cfg(test)]
mod tests {
    use super::*;

    /// Where each line of a file starts, and its bytes.
    fn lines(file: &[u8]) -> Vec<(usize, &[u8])> {
        Lines::of(file).map(|line| (line.start, line.bytes)).collect()
    }

    #[test]
    fn a_line_is_without_its_end() {
        assert_eq!(lines(b"a\nb\r\n\r\nc"), [(0, &b"a"[..]), (2, b"b"), (5, b""), (7, b"c")]);
        assert_eq!(lines(b"\r\n"), [(0, &b""[..])]);
    }

    #[test]
    fn only_the_byte_13_before_a_byte_10_belongs_to_the_end() {
        assert_eq!(lines(b"a\r\r\nb\r \n"), [(0, &b"a\r"[..]), (4, b"b\r ")]);
        assert_eq!(lines(b"a\r\nb\r"), [(0, &b"a"[..]), (3, b"b\r")]);
    }
}
