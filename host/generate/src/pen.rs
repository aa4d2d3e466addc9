//! The pen: lays down lines field by field, each spelled in one of the ways that mean the same.

use std::ops::Range;

use crate::random::Random;
use crate::values::{self, ONE};

/// How the lines of a file end: with byte 10, with bytes 13 and 10, or by chance with either.
#[derive(Clone, Copy)]
enum Ends {
    Plain,
    Windows,
    Mixed,
}

/// A file being written, and the chances by which its spelling varies.
pub struct Pen<'r> {
    /// Where chances come from.
    pub random: &'r mut Random,
    /// What is written so far.
    pub out: Vec<u8>,
    /// Where words and names stand in it; they are written in capitals.
    pub words: Vec<Range<usize>>,
    ends: Ends,
    line: usize,
    first: bool,
}

impl<'r> Pen<'r> {
    /// An empty file; in most files every line ends with byte 10.
    pub fn new(random: &'r mut Random) -> Self {
        let ends = match random.below(8) {
            0 => Ends::Windows,
            1 => Ends::Mixed,
            _ => Ends::Plain,
        };
        Pen { random, out: Vec::new(), words: Vec::new(), ends, line: 0, first: true }
    }

    /// Writes a keyword in a mixture of letter case.
    pub fn keyword(&mut self, before: &str, name: &str) {
        self.gap();
        let style = self.random.below(8);
        for byte in before.bytes().chain(name.bytes()) {
            let small = style == 0 || style == 1 && self.random.one_in(2);
            self.out.push(if small { byte.to_ascii_lowercase() } else { byte });
        }
    }

    /// Writes a word.
    pub fn word(&mut self, word: &str) {
        self.gap();
        self.bare(word.as_bytes());
        self.words.push(self.out.len() - word.len()..self.out.len());
    }

    /// Writes a date.
    pub fn date(&mut self, date: &str) {
        self.gap();
        self.bare(date.as_bytes());
    }

    /// Writes one word of a list.
    pub fn one_of(&mut self, list: &[&str]) {
        let word = self.random.pick(list);
        self.word(word);
    }

    /// Writes an integer.
    pub fn integer(&mut self, value: i64) {
        self.gap();
        self.sign(value);
        self.whole(value.unsigned_abs());
    }

    /// Writes a number by its count of hundred-thousandths.
    pub fn number(&mut self, count: i64) {
        self.gap();
        self.sign(count);
        let magnitude = count.unsigned_abs();
        self.whole(magnitude / ONE as u64);
        let decimals = format!("{:05}", magnitude % ONE as u64);
        let needed = decimals.trim_end_matches('0').len();
        let shown = match self.random.below(4) {
            0 => needed,
            1 => needed.max(1),
            2 => 5,
            _ => needed + self.random.below(9 - needed),
        };
        if shown > 0 {
            let zeros = "0".repeat(shown.saturating_sub(5));
            let text = format!(".{}{zeros}", &decimals[..shown.min(5)]);
            self.out.extend_from_slice(text.as_bytes());
        }
    }

    /// Writes a text, bare or in quotes as it allows.
    pub fn text(&mut self, text: &[u8]) {
        let first = self.first;
        self.gap();
        let column_one = self.out.len() == self.line;
        let must = text.is_empty()
            || text.contains(&b' ')
            || first && text[0] == b'.'
            || column_one && text[0] == b'#';
        if must || self.random.one_in(4) {
            self.out.push(b'"');
            self.bare(text);
            self.out.push(b'"');
        } else {
            self.bare(text);
        }
    }

    /// Writes a text that may be one of some names.
    pub fn text_or_name(&mut self, text: &[u8], names: &[&str]) {
        self.text(text);
        if names.iter().any(|name| name.as_bytes() == text) {
            let end = self.out.len() - usize::from(self.out.last() == Some(&b'"'));
            self.words.push(end - text.len()..end);
        }
    }

    /// Writes any text.
    pub fn any_text(&mut self) {
        let text = values::text(self.random);
        self.text(&text);
    }

    /// Writes any number, or one of at least 0.
    pub fn any_number(&mut self, negative: bool) {
        let count = values::count(self.random, negative);
        self.number(count);
    }

    /// Ends the line.
    pub fn end(&mut self) {
        if self.random.one_in(10) {
            self.spaces(3);
        }
        self.line_end();
        self.first = true;
    }

    /// Writes comments and blank lines, or none.
    pub fn free_lines(&mut self) {
        while self.random.one_in(6) {
            match self.random.below(4) {
                0 => self.spaces(4),
                1 => self.out.extend_from_slice(b"# a comment"),
                2 => self.out.extend_from_slice(b"# a byte 13\r"),
                _ => self.out.extend_from_slice(b"#\t\"\r\x00\x7F.HEADER"),
            }
            self.line_end();
        }
    }

    fn bare(&mut self, bytes: &[u8]) {
        self.out.extend_from_slice(bytes);
    }

    /// Writes the bytes that end a line.
    fn line_end(&mut self) {
        let windows = match self.ends {
            Ends::Plain => false,
            Ends::Windows => true,
            Ends::Mixed => self.random.one_in(2),
        };
        self.out.extend_from_slice(if windows { b"\r\n" } else { b"\n" });
        self.line = self.out.len();
    }

    /// Writes the spaces before a field.
    fn gap(&mut self) {
        if !self.first {
            self.out.push(b' ');
        }
        if self.random.one_in(8) {
            self.spaces(4);
        }
        self.first = false;
    }

    fn spaces(&mut self, most: usize) {
        let count = self.random.below(most + 1);
        self.out.resize(self.out.len() + count, b' ');
    }

    fn sign(&mut self, value: i64) {
        match value {
            i64::MIN..=-1 => self.out.push(b'-'),
            0 if self.random.one_in(6) => self.out.push(b'-'),
            _ if self.random.one_in(12) => self.out.push(b'+'),
            _ => (),
        }
    }

    /// Writes digits, sometimes after zeros that mean nothing.
    fn whole(&mut self, value: u64) {
        let zeros = if self.random.one_in(12) { self.random.below(14) } else { 0 };
        let text = format!("{}{value}", "0".repeat(zeros));
        self.out.extend_from_slice(text.as_bytes());
    }
}
