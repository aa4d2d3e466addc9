//! Letters: a file's words and the names in it mean the same in small letters and in capitals.

use std::ops::Range;

use crate::random::Random;

/// The references that are names: they mean their capitals in any letter case.
pub const REFERENCES: &[&str] = &["NOREFDES", "BOARD"];
/// The parts of holes that are names.
pub const HOLE_PARTS: &[&str] = &["NOREFDES", "BOARD", "PANEL"];

/// A whole file, and where its words and names stand, all of them in capitals.
pub struct Capitals {
    /// The file.
    pub file: Vec<u8>,
    /// The places of its words and names.
    pub words: Vec<Range<usize>>,
}

impl Capitals {
    /// The file as some program would write it: mostly in capitals, else in small or mixed letters.
    pub fn spelled(self, random: &mut Random) -> Vec<u8> {
        match random.below(8) {
            0 => self.in_small_letters(),
            1 | 2 => self.in_mixed_letters(random),
            _ => self.file,
        }
    }

    /// The file with every word and name in small letters.
    pub fn in_small_letters(&self) -> Vec<u8> {
        let mut file = self.file.clone();
        for word in &self.words {
            file[word.clone()].make_ascii_lowercase();
        }
        file
    }

    /// The file with each letter of a word or name small or capital by chance.
    pub fn in_mixed_letters(&self, random: &mut Random) -> Vec<u8> {
        let mut file = self.file.clone();
        for place in self.words.iter().cloned().flatten() {
            if random.one_in(2) {
                file[place].make_ascii_lowercase();
            }
        }
        file
    }
}
