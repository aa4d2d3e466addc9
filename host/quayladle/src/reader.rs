//! The line reader: a file's lines, one at a time, by the places of their fields.
//!
//! Each call goes through the proved reader: it is opened at the place that is kept here, and called once.

use crate::ffi;
use crate::reply::Reply;

/// A reader opened over a file, which hands out the fields of the next line at each call.
///
/// ```
/// let mut reader = quayladle::Reader::open(b"a \"b c\"\n");
/// let mut lent = [0; 4];
/// assert_eq!(reader.next(&mut lent).done(), Ok(2));
/// assert_eq!(lent, [0, 1, 3, 3], "start and length of each field, its quotes left off");
/// let refusal = reader.next(&mut lent).done().unwrap_err();
/// assert_eq!((refusal.reason.number(), refusal.line), (13, 2), "no line is left");
/// ```
#[derive(Debug, Clone)]
pub struct Reader<'a> {
    file: &'a [u8],
    at: usize,
    line: u64,
}

impl<'a> Reader<'a> {
    /// Opens a reader before the first line; a file over the size limit is refused by [`Self::next`].
    pub fn open(file: &'a [u8]) -> Self {
        Reader { file, at: 0, line: 1 }
    }

    /// The number of the line that the next call hands out, from 1.
    pub fn line(&self) -> u64 {
        self.line
    }

    /// Start and length of each field of the next line, from the front of the lent slice on; the count is its fields.
    ///
    /// A comment or blank line has none. It answers 1 for a file over the limit, 13 where no line is left, 3 or 4 for a line
    /// with a forbidden byte or broken quoting, and 2 with the number of fields where too few numbers are lent. The reader
    /// moves on after 0, 3 and 4 only, and changes what is lent after 0 only.
    pub fn next(&mut self, out: &mut [i64]) -> Reply {
        let (reply, [at, line]) = ffi::fields(self.file, self.at, self.line, out);
        self.at = at as usize;
        self.line = line;
        reply.into()
    }
}
