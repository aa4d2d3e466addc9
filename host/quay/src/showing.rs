//! Answers and names as people read them.

use std::path::Path;

use quayladle::{Refusal, Reply, Verdict};

/// A path as it can be printed on one line.
pub fn shown(path: &Path) -> String {
    printable(path.as_os_str().as_encoded_bytes())
}

/// Bytes as they can be printed on one line: what would move the cursor, and what is no UTF-8, is spelled out.
pub fn printable(bytes: &[u8]) -> String {
    let mut out = String::new();
    let Ok(text) = std::str::from_utf8(bytes) else {
        return bytes.escape_ascii().to_string();
    };
    for letter in text.chars() {
        match letter.is_control() {
            true => out.extend(letter.escape_default()),
            false => out.push(letter),
        }
    }
    out
}

/// A refusal with its place: `board.emn:206: 11 loop rule: …`.
pub fn refused(name: &str, refusal: Refusal) -> String {
    match refusal.line {
        0 => format!("{name}: {refusal}"),
        line => format!("{name}:{line}: {refusal}"),
    }
}

/// `number line count`.
pub fn plain(reply: Reply) -> String {
    format!("{} {} {}", reply.number, reply.line, reply.count)
}

/// `number line count which`.
pub fn plain_verdict(verdict: Verdict) -> String {
    format!("{} {}", plain(verdict.reply), verdict.which)
}

/// A count with its noun: `1 row`, `16,777,216 bytes`.
pub fn counted(count: u64, noun: &str) -> String {
    let ending = if count == 1 { "" } else { "s" };
    format!("{} {noun}{ending}", grouped(count))
}

/// A count with a comma between thousands.
pub fn grouped(count: u64) -> String {
    let digits = count.to_string();
    let mut out = String::new();
    for (place, digit) in digits.chars().enumerate() {
        if place > 0 && (digits.len() - place) % 3 == 0 {
            out.push(',');
        }
        out.push(digit);
    }
    out
}

#[cfg(test)]
mod tests {
    use super::*;

    #[test]
    fn thousands() {
        let words = [0, 7, 999, 1_000, 16_777_216].map(grouped);
        assert_eq!(words, ["0", "7", "999", "1,000", "16,777,216"]);
        assert_eq!([counted(1, "row"), counted(2, "row")], ["1 row", "2 rows"]);
    }

    #[test]
    fn a_name_stays_on_its_line() {
        assert_eq!(shown(Path::new("a\nb\u{1b}[2J é")), "a\\nb\\u{1b}[2J é");
        assert_eq!(printable(b"M\xfcller\n"), "M\\xfcller\\n");
    }
}
