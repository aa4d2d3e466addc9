//! The sheet: lays down a file field by field, and beside it a copy that says the same in other bytes.

/// Ten-thousandths of a unit are counted, so that a number fits the five decimals of a file.
pub const ONE: i64 = 10_000;

/// A file in its canonical spelling and its copy: decimals left off, spaces and quotes put in, keywords small.
///
/// The copy is the shorter one wherever numbers are round, so it keeps within the size limit when the file does.
#[derive(Default)]
pub struct Sheet {
    /// The file.
    pub file: Vec<u8>,
    /// The copy.
    pub copy: Vec<u8>,
    inside: bool,
    fields: usize,
}

impl Sheet {
    /// Writes a keyword.
    pub fn keyword(&mut self, keyword: &str) {
        self.field(keyword.as_bytes(), keyword.to_ascii_lowercase().as_bytes());
    }

    /// Writes a word as it is.
    pub fn word(&mut self, word: &str) {
        self.field(word.as_bytes(), word.as_bytes());
    }

    /// Writes a text without spaces, in the copy sometimes in quotes.
    pub fn text(&mut self, text: &str) {
        if self.fields % 3 == 0 {
            self.field(text.as_bytes(), format!("\"{text}\"").as_bytes());
        } else {
            self.word(text);
        }
    }

    /// Writes an integer of at least 0.
    pub fn integer(&mut self, value: u32) {
        self.field(value.to_string().as_bytes(), format!("{value:02}").as_bytes());
    }

    /// Writes a number by its count of ten-thousandths.
    pub fn number(&mut self, count: i64) {
        let sign = if count < 0 { "-" } else { "" };
        let (whole, part) = (count.abs() / ONE, count.abs() % ONE);
        let full = format!("{sign}{whole}.{part:04}0");
        let bare = full.trim_end_matches('0').trim_end_matches('.');
        let plus = if count >= 0 && self.fields % 7 == 0 { "+" } else { "" };
        self.field(full.as_bytes(), format!("{plus}{bare}").as_bytes());
    }

    /// Ends the line.
    pub fn end(&mut self) {
        for out in [&mut self.file, &mut self.copy] {
            out.push(b'\n');
        }
        self.inside = false;
    }

    /// Writes lines for as long as the file ends at a place or before it; those that go past it are taken back.
    pub fn fill(&mut self, end: usize, mut lines: impl FnMut(&mut Sheet)) {
        loop {
            let before = (self.file.len(), self.copy.len());
            lines(self);
            if self.file.len() > end {
                self.file.truncate(before.0);
                self.copy.truncate(before.1);
                return;
            }
        }
    }

    fn field(&mut self, file: &[u8], copy: &[u8]) {
        if self.inside {
            self.file.push(b' ');
            self.copy.push(b' ');
        }
        if self.fields % 5 == 0 {
            self.copy.push(b' ');
        }
        self.file.extend_from_slice(file);
        self.copy.extend_from_slice(copy);
        self.inside = true;
        self.fields += 1;
    }
}

#[cfg(test)]
mod tests {
    use super::*;

    #[test]
    fn the_copy_says_the_same_in_other_bytes() {
        let mut sheet = Sheet::default();
        sheet.keyword(".NOTES");
        sheet.end();
        for count in [0, -5_000, 125 * ONE, 1] {
            sheet.number(count);
        }
        sheet.text("a");
        sheet.text("b");
        sheet.end();
        assert_eq!(sheet.file, b".NOTES\n0.00000 -0.50000 125.00000 0.00010 a b\n");
        assert_eq!(sheet.copy, b" .notes\n0 -0.5 125 0.0001  a \"b\"\n");
    }

    #[test]
    fn what_goes_past_the_end_is_taken_back() {
        let mut sheet = Sheet::default();
        sheet.fill(7, |sheet| {
            sheet.word("ab");
            sheet.end();
        });
        assert_eq!((&sheet.file[..], &sheet.copy[..]), (&b"ab\nab\n"[..], &b" ab\nab\n"[..]));
    }
}
