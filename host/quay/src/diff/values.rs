//! What fields mean, and how that is printed.

use std::fmt;

use crate::showing::printable;

/// What a field of a record means.
#[derive(Debug, Clone, Copy, PartialEq, Eq, Hash)]
pub enum Value<'a> {
    /// A word, or the version.
    Word(&'static str),
    /// A count of hundred-thousandths.
    Number(i64),
    /// A whole number.
    Integer(i64),
    /// A text.
    Text(&'a [u8]),
}

impl Value<'_> {
    /// Its bytes as canonical text has them, but for a text's quotes.
    pub fn bytes(&self) -> Vec<u8> {
        match self {
            Value::Word(word) => word.as_bytes().to_vec(),
            Value::Number(count) => decimal(*count).into_bytes(),
            Value::Integer(number) => number.to_string().into_bytes(),
            Value::Text(text) => text.to_vec(),
        }
    }

    /// A quote where canonical text puts the value in quotes.
    pub fn quote(&self) -> &'static str {
        match self {
            Value::Text([] | [b'#' | b'.', ..]) => "\"",
            Value::Text(text) if text.contains(&b' ') => "\"",
            _ => "",
        }
    }
}

/// As canonical text has it, spelled so that it can be printed on one line.
impl fmt::Display for Value<'_> {
    fn fmt(&self, f: &mut fmt::Formatter) -> fmt::Result {
        let quote = self.quote();
        write!(f, "{quote}{}{quote}", printable(&self.bytes()))
    }
}

/// A count of hundred-thousandths with its five decimals.
fn decimal(count: i64) -> String {
    const ONE: u64 = 100_000;
    let sign = if count < 0 { "-" } else { "" };
    let magnitude = count.unsigned_abs();
    format!("{sign}{}.{:05}", magnitude / ONE, magnitude % ONE)
}

#[cfg(test)]
mod tests {
    use super::*;

    #[test]
    fn numbers_have_five_decimals() {
        let counts = [0, 1, -1, 100_000, -12_345_678, 99_999_999_999];
        let printed = counts.map(|count| Value::Number(count).to_string());
        let expected = ["0.00000", "0.00001", "-0.00001", "1.00000", "-123.45678", "999999.99999"];
        assert_eq!(printed, expected);
    }

    #[test]
    fn texts_are_quoted_where_canonical_text_quotes_them() {
        let texts = ["", "a b", "#a", ".a", "a#.", "é"];
        let printed = texts.map(|text| Value::Text(text.as_bytes()).to_string());
        assert_eq!(printed, ["\"\"", "\"a b\"", "\"#a\"", "\".a\"", "a#.", "é"]);
        assert_eq!(Value::Text(b"M\xfcller x").to_string(), "\"M\\xfcller x\"");
    }
}
