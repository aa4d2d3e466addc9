//! What the operations answer, by document 01's table of replies.

use crate::refusal::{Reason, Refusal};

/// A reply as the proved library leaves it: number, line, count, and which file was refused.
pub(crate) type Numbers = [u64; 4];

/// The answer of an operation on one file.
#[derive(Debug, Clone, Copy, PartialEq, Eq)]
pub struct Reply {
    /// 0 when done, otherwise the reason of the refusal.
    pub number: u64,
    /// The line that numbers 3 to 13 speak of, from 1; otherwise 0.
    pub line: u64,
    /// What was done or is needed, as the table says of each number.
    pub count: u64,
}

impl Reply {
    /// The count of what was done, or the refusal in types.
    ///
    /// ```
    /// use quayladle::{check, Reason};
    ///
    /// let refusal = check(b"").done().unwrap_err();
    /// assert_eq!((refusal.reason, refusal.line), (Reason::EndsEarly, 1));
    /// ```
    ///
    /// # Panics
    ///
    /// If the number is not in the table of replies, which no operation answers.
    pub fn done(self) -> Result<u64, Refusal> {
        if self.number == 0 {
            return Ok(self.count);
        }
        let reason = Reason::of_number(self.number).expect("a number of the table of replies");
        Err(Refusal { reason, line: self.line, count: self.count })
    }
}

impl From<Refusal> for Reply {
    fn from(refusal: Refusal) -> Self {
        Reply { number: refusal.reason.number(), line: refusal.line, count: refusal.count }
    }
}

impl From<Numbers> for Reply {
    fn from([number, line, count, _]: Numbers) -> Self {
        Reply { number, line, count }
    }
}

/// The answer of an operation on two files.
#[derive(Debug, Clone, Copy, PartialEq, Eq)]
pub struct Verdict {
    /// The reply on the file that was refused, or on both.
    pub reply: Reply,
    /// Which file was refused, 1 or 2; 0 if neither was.
    pub which: u64,
}

impl From<Numbers> for Verdict {
    fn from(numbers: Numbers) -> Self {
        Verdict { reply: Reply::from(numbers), which: numbers[3] }
    }
}
