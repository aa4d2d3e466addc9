//! What an operation answers: number, line and count, and the faults that a line can have.

/// The answer of every operation, by document 01's table of replies.
#[derive(Debug, Clone, Copy, PartialEq, Eq)]
pub struct Reply {
    /// 0 when done, otherwise the reason of the refusal.
    pub number: u64,
    /// The line that numbers 3 to 13 speak of, from 1; otherwise 0.
    pub line: u64,
    /// What was done or is needed, as the table says of each number.
    pub count: u64,
}

impl Reply {
    /// The file, or the text to be written, is over the size limit.
    pub(crate) const OVERSIZE: Reply = Reply::counted(1, 0);
    /// Rows and text bytes have the meaning of no acceptable file, or the rows' lines do not rise.
    pub(crate) const MEANINGLESS: Reply = Reply::counted(15, 0);
    /// Judging was given the wrong kind of file.
    pub(crate) const WRONG_KIND: Reply = Reply::counted(17, 0);

    /// Done.
    pub(crate) const fn done(count: u64) -> Reply {
        Reply::counted(0, count)
    }

    /// Too few numbers lent for the rows, or for the fields of the viewer's line.
    pub(crate) const fn few_rows(needed: u64) -> Reply {
        Reply::counted(2, needed)
    }

    /// The lent text buffer is too short.
    pub(crate) const fn short_text(needed: u64) -> Reply {
        Reply::counted(14, needed)
    }

    /// A placement, numbered from 1, has no library entry.
    pub(crate) const fn no_entry(placement: u64) -> Reply {
        Reply::counted(16, placement)
    }

    /// The file ends too early; `line` is one more than its lines.
    pub(crate) const fn too_early(line: u64) -> Reply {
        Reply { number: 13, line, count: 0 }
    }

    /// A line is at fault.
    pub(crate) const fn fault(fault: Fault, line: u64) -> Reply {
        Reply { number: fault as u64, line, count: 0 }
    }

    const fn counted(number: u64, count: u64) -> Reply {
        Reply { number, line: 0, count }
    }
}

/// What is wrong with a line; the value of each is its number in the table of replies.
#[derive(Debug, Clone, Copy, PartialEq, Eq)]
pub enum Fault {
    /// A forbidden byte.
    Byte = 3,
    /// Broken quoting.
    Quoting = 4,
    /// This kind of line cannot stand here.
    Place = 5,
    /// A wrong number of fields.
    Fields = 6,
    /// Not a number or integer, or past its magnitude.
    Number = 7,
    /// Finer than five decimals.
    Decimals = 8,
    /// A wrong word, version or date, or BOARD as a reference in a board file, in any letter case.
    Word = 9,
    /// Past a sign or angle limit.
    Limit = 10,
    /// A loop rule.
    Loop = 11,
    /// Geometry and part both used before.
    Twice = 12,
}
