//! Refusals in types and words.

use std::fmt;

/// Why a file was refused; the value of each is its number in the table of replies.
#[derive(Debug, Clone, Copy, PartialEq, Eq, PartialOrd, Ord)]
pub enum Reason {
    /// The file, or the text to be written, is over [`LARGEST_FILE`](crate::LARGEST_FILE) bytes.
    TooLarge = 1,
    /// Accepted, but too few rows were lent; the count is the rows needed.
    FewRows = 2,
    /// A forbidden byte.
    Byte = 3,
    /// Broken quoting.
    Quoting = 4,
    /// This kind of line cannot stand here.
    Place = 5,
    /// A wrong number of fields.
    Fields = 6,
    /// Not a number or integer, or past its magnitude.
    Number = 7,
    /// Finer than five decimals.
    Decimals = 8,
    /// A wrong word, version or date, or BOARD as a reference in a board file; words and BOARD in any letter case.
    Word = 9,
    /// Past a sign or angle limit.
    Limit = 10,
    /// A loop rule.
    Loop = 11,
    /// Geometry and part both used before.
    Twice = 12,
    /// The file ends too early; the line is one more than its lines.
    EndsEarly = 13,
    /// The lent text buffer is too short; the count is the bytes needed.
    ShortText = 14,
    /// Rows and text bytes have the meaning of no acceptable file, or the rows' lines do not rise.
    Meaningless = 15,
    /// A placement without its library entry; the count is its number from 1.
    NoEntry = 16,
    /// The wrong kind of file for judging.
    WrongKind = 17,
}

/// Every reason, in the order of the numbers.
const REASONS: [Reason; 17] = [
    Reason::TooLarge,
    Reason::FewRows,
    Reason::Byte,
    Reason::Quoting,
    Reason::Place,
    Reason::Fields,
    Reason::Number,
    Reason::Decimals,
    Reason::Word,
    Reason::Limit,
    Reason::Loop,
    Reason::Twice,
    Reason::EndsEarly,
    Reason::ShortText,
    Reason::Meaningless,
    Reason::NoEntry,
    Reason::WrongKind,
];

impl Reason {
    /// The reason that a number stands for; 0, done, stands for none.
    pub fn of_number(number: u64) -> Option<Reason> {
        REASONS.into_iter().find(|reason| reason.number() == number)
    }

    /// Its number.
    pub fn number(self) -> u64 {
        self as u64
    }

    /// The rule in a few words.
    pub fn title(self) -> &'static str {
        match self {
            Reason::TooLarge => "too large",
            Reason::FewRows => "too few rows lent",
            Reason::Byte => "forbidden byte",
            Reason::Quoting => "broken quoting",
            Reason::Place => "line out of place",
            Reason::Fields => "number of fields",
            Reason::Number => "not a number",
            Reason::Decimals => "too many decimals",
            Reason::Word => "wrong word, version or date",
            Reason::Limit => "sign or angle limit",
            Reason::Loop => "loop rule",
            Reason::Twice => "component named before",
            Reason::EndsEarly => "ends too early",
            Reason::ShortText => "text buffer too short",
            Reason::Meaningless => "no such file",
            Reason::NoEntry => "no library entry",
            Reason::WrongKind => "wrong kind of file",
        }
    }

    /// What the rule asks for, so that one knows what to look for on the line.
    pub fn help(self) -> &'static str {
        match self {
            Reason::TooLarge => "a file has at most 16,777,216 bytes",
            Reason::FewRows => "the lent slice holds fewer rows than the file has",
            Reason::Byte => {
                "a tab or another control byte; a carriage return may stand only before a line feed, or in a comment"
            }
            Reason::Quoting => "a quote inside a bare field, or none at a quoted field's end",
            Reason::Place => {
                "no such line may stand here; or an unknown keyword, or a comment or blank line inside a section"
            }
            Reason::Fields => "the line has too few fields or too many",
            Reason::Number => "a field is no number or integer, or is too large",
            Reason::Decimals => "a number has a sixth decimal that is not zero",
            Reason::Word => {
                "a word in quotes or not in its list, a version other than 3.0, a bad date, or BOARD as a reference in \
                a board file; letter case does not matter"
            }
            Reason::Limit => "a number below zero or an angle beyond 360 where none may be",
            Reason::Loop => "a loop not closed, a point repeated, or a wrong label or angle",
            Reason::Twice => "an earlier component has the same geometry and part",
            Reason::EndsEarly => "more lines are needed",
            Reason::ShortText => "the lent buffer holds fewer bytes than the text has",
            Reason::Meaningless => {
                "rows and text have the meaning of no acceptable file, or line numbers that do not rise"
            }
            Reason::NoEntry => "the library has no component with this package and part",
            Reason::WrongKind => "a board or panel is judged by a library",
        }
    }
}

/// A refusal: why, on which line, and the count that goes with some reasons.
#[derive(Debug, Clone, Copy, PartialEq, Eq)]
pub struct Refusal {
    /// Why.
    pub reason: Reason,
    /// The line at fault, from 1; 0 where no line is.
    pub line: u64,
    /// The rows, bytes or placement that the reason speaks of; otherwise 0.
    pub count: u64,
}

impl fmt::Display for Refusal {
    /// Number, title and help, and the count where there is one: `11 loop rule: a loop not closed, …`.
    fn fmt(&self, f: &mut fmt::Formatter) -> fmt::Result {
        let reason = self.reason;
        write!(f, "{} {}: {}", reason.number(), reason.title(), reason.help())?;
        match reason {
            Reason::FewRows => write!(f, "; {} rows are needed", self.count),
            Reason::ShortText => write!(f, "; {} bytes are needed", self.count),
            Reason::NoEntry => write!(f, "; it is placement {}", self.count),
            _ => Ok(()),
        }
    }
}

impl std::error::Error for Refusal {}

#[cfg(test)]
mod tests {
    use super::*;

    #[test]
    fn every_number_has_its_reason() {
        assert_eq!((Reason::of_number(0), Reason::of_number(18)), (None, None));
        for number in 1..=17 {
            assert_eq!(Reason::of_number(number).map(Reason::number), Some(number));
        }
    }
}
