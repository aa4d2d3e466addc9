//! Windows copies: the instructions that a line takes in a file, and in its copy with a 13 before each 10.

use crate::counts::Count;
use crate::files::MIB;
use crate::table::{figure, Table};

/// What is said under the table.
pub const NOTE: &str = "\
Instructions of one run for a line of those that an operation goes through, in the file and in its Windows copy, which has a 13 \
before each 10. Ratio: the copy's over the file's. A file of 16 MiB has a copy over the size limit, so there is none of that size.";

/// The same asked of a file and of its Windows copy, which has as many lines.
pub struct Pair {
    /// What the file takes.
    pub file: Count,
    /// What the copy takes.
    pub copy: Count,
}

impl Pair {
    /// What a line of the copy takes over one of the file, on both sides.
    pub fn ratios(&self) -> [f64; 2] {
        let [file, copy] = [self.file.per_line(), self.copy.per_line()];
        [copy[0] / file[0], copy[1] / file[1]]
    }
}

/// The table.
pub fn table(pairs: &[Pair]) -> Table {
    let names = [
        "file",
        "operation",
        "size",
        "proved",
        "proved copy",
        "proved ratio",
        "second",
        "second copy",
        "second ratio",
    ];
    let mut table = Table::new(2, &names);
    for pair in pairs {
        let Count { kind, operation, size, .. } = pair.file;
        let [file, copy] = [pair.file.per_line(), pair.copy.per_line()];
        let [proved, second] = pair.ratios();
        table.add([
            kind.name().to_string(),
            operation.to_string(),
            format!("{} MiB", size / MIB),
            format!("{:.0}", file[0]),
            format!("{:.0}", copy[0]),
            figure(Some(proved)),
            format!("{:.0}", file[1]),
            format!("{:.0}", copy[1]),
            figure(Some(second)),
        ]);
    }
    table
}

#[cfg(test)]
mod tests {
    use super::*;
    use crate::asking::Operation;
    use crate::speeds::Kind;

    #[test]
    fn a_copy_is_held_against_its_file_by_the_line() {
        let (kind, operation, size) = (Kind::Board, Operation::Check, MIB);
        let count = |bytes, sides| Count { kind, operation, size, bytes, lines: 10, sides };
        let pair = Pair { file: count(100, [1_000, 3_000]), copy: count(110, [1_100, 3_600]) };
        assert_eq!(pair.ratios(), [1.1, 1.2]);
        let text = table(&[pair]).text();
        let row = text.lines().last().map(|row| row.split_whitespace().collect::<Vec<_>>());
        let cells = "| board | check | 1 MiB | 100 | 110 | 1.10 | 300 | 360 | 1.20 |";
        assert_eq!(row, Some(cells.split_whitespace().collect()));
    }
}
