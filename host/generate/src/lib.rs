//! Generated IDF 3.0 files, whole and damaged, to try readers on: the same seed always gives the
//! same files. It knows how files are spelled and nothing of how they are read.

#![forbid(unsafe_code)]
#![warn(missing_docs)]

mod damage;
mod files;
mod letters;
mod lines;
mod pen;
mod random;
mod sections;
mod values;

pub use damage::{changed, damaged};
pub use files::{board, lettered, library, matched, panel};
pub use lines::lines;
pub use random::Random;

/// A small file by its number: those of even numbers are whole, the others damaged.
pub fn file(seed: u64) -> Vec<u8> {
    let mut random = Random::new(seed);
    let size = random.below(900);
    let whole = match random.below(3) {
        0 => board(&mut random, size),
        1 => panel(&mut random, size),
        _ => library(&mut random, size),
    };
    if seed % 2 == 0 {
        whole
    } else {
        damaged(&mut random, &whole)
    }
}

/// The Windows copy of a file: a byte 13 put before each byte 10 that has none.
pub fn windows_copy(file: &[u8]) -> Vec<u8> {
    let mut copy = Vec::with_capacity(file.len() + file.len() / 8);
    for &byte in file {
        if byte == b'\n' && copy.last() != Some(&b'\r') {
            copy.push(b'\r');
        }
        copy.push(byte);
    }
    copy
}

#[cfg(test)]
mod tests {
    use super::*;

    #[test]
    fn a_windows_copy_has_one_13_before_each_10() {
        assert_eq!(windows_copy(b"a\n\nb\r\n\r\r\nc"), b"a\r\n\r\nb\r\n\r\r\nc");
        assert_eq!(windows_copy(b""), b"");
    }
}
