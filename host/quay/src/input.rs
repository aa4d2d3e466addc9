//! Files as the operations take them.

use std::fs::{self, File};
use std::io::{self, Read};
use std::path::Path;

use quayladle::{LARGEST_FILE, WIDTH};

use crate::ending::Failure;

/// The bytes of a file; of one over the limit only as many as show that it is.
pub fn limited(path: &Path) -> io::Result<Vec<u8>> {
    let mut bytes = Vec::new();
    File::open(path)?.take(LARGEST_FILE as u64 + 1).read_to_end(&mut bytes)?;
    Ok(bytes)
}

/// The same, with the file's name in what may go wrong.
pub fn bytes(path: &Path) -> Result<Vec<u8>, Failure> {
    limited(path).map_err(Failure::of_file(path))
}

/// The numbers of a file of rows.
pub struct Numbers {
    /// All of them, in order.
    pub list: Vec<i64>,
    /// Whether each line that has any has as many as a row had before it had its line.
    pub are_tens: bool,
}

/// Reads a file of rows: numbers, with spaces or line ends between.
pub fn numbers(path: &Path) -> Result<Numbers, Failure> {
    let text = fs::read_to_string(path).map_err(Failure::of_file(path))?;
    let mut list = Vec::new();
    let mut are_tens = true;
    for (place, line) in text.lines().enumerate() {
        let before = list.len();
        for word in line.split_ascii_whitespace() {
            let number =
                word.parse().map_err(|_| Failure::NoRows(path.to_path_buf(), place + 1))?;
            list.push(number);
        }
        are_tens &= [0, WIDTH].contains(&(list.len() - before));
    }
    are_tens &= !list.is_empty();
    Ok(Numbers { list, are_tens })
}
