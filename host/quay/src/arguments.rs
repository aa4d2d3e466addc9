//! What the command line may say.

use std::path::PathBuf;

use clap::{Parser, Subcommand};

const EXIT_CODES: &str = "\
Exit code: 0 if all is accepted, 1 if a file is refused, two files differ or a placement lacks its entry, \
2 if the command line is wrong or a file cannot be read or written. `shelf` ends with 0 once every file has its answer.";

/// Check, compare and judge IDF 3.0 files, and look through a shelf of them.
///
/// What is said of a file is the answer of a library that is proved to follow the rules.
#[derive(Debug, Parser)]
#[command(name = "quay", version, after_help = EXIT_CODES)]
pub struct Arguments {
    #[command(subcommand)]
    pub command: Command,
}

#[derive(Debug, Subcommand)]
pub enum Command {
    /// Say of each file whether it is accepted, or its first refusal with the line
    Check {
        /// Print `number line count` only, a line for each file that can be read
        #[arg(long)]
        plain: bool,
        /// The files to check
        #[arg(value_name = "FILE", required = true)]
        files: Vec<PathBuf>,
    },
    /// Print the canonical text of an accepted file
    Canon {
        /// On a refusal print `number line count`
        #[arg(long)]
        plain: bool,
        /// A board, panel or library file
        file: PathBuf,
    },
    /// Print the rows of an accepted file, eleven numbers a line: kind, fields, and the line that the row came from
    Rows {
        /// On a refusal print `number line count`
        #[arg(long)]
        plain: bool,
        /// A board, panel or library file
        file: PathBuf,
    },
    /// Print the canonical text of rows, or `number line count` if they are refused
    Write {
        /// The rows, as `quay rows` prints them: eleven numbers each, with spaces or line ends between
        rows: PathBuf,
        /// The bytes that the rows' texts stand in
        text: PathBuf,
    },
    /// Print the fields of each line with their places, whatever the lines say
    Fields {
        /// Print a line for each call of the line reader, up to the one that says that no line is left: `number line count`,
        /// then start and length of each field
        #[arg(long)]
        plain: bool,
        /// Any file
        file: PathBuf,
    },
    /// Say whether two files mean the same, however they are spelled
    Same {
        /// Print `number line count which` only
        #[arg(long)]
        plain: bool,
        /// A board, panel or library file
        #[arg(value_name = "A")]
        first: PathBuf,
        /// Another one
        #[arg(value_name = "B")]
        second: PathBuf,
    },
    /// Say where two files differ, record by record, with the line of each
    ///
    /// Whether they differ, and so the exit code, is the answer of the proved comparison, as `quay same` gives it. What is said
    /// of their records is not proved: it is this command's own work over the rows that the proved reader gives.
    ///
    /// A difference is a field that has another value in the second file, or a record of one file alone. Records are matched
    /// for a limited time: of large files in quite another order the list and its length may differ from run to run.
    Diff {
        /// Print lines for programs
        ///
        /// First `number line count which`, as `quay same --plain` does. Where the files differ, the number of differences
        /// in all, then a line for each, its parts with tabs between: `changed`, `first` or `second` (a record of that file
        /// alone), section, kind, line in the first file, line in the second, 0 for none; then the field's name and its two
        /// values, or the record's values in order.
        #[arg(long, conflicts_with = "json")]
        plain: bool,
        /// Print JSON: the files, the verdict, the number of differences, whether the list was cut, and the list
        #[arg(long)]
        json: bool,
        /// How many differences to print, 0 for all
        #[arg(long, value_name = "N", default_value_t = 100)]
        limit: usize,
        /// A board, panel or library file
        #[arg(value_name = "A")]
        first: PathBuf,
        /// Another one
        #[arg(value_name = "B")]
        second: PathBuf,
    },
    /// Say whether each placement of a board or panel has its entry in a library
    Judge {
        /// Print `number line count which` only
        #[arg(long)]
        plain: bool,
        /// A board or panel file
        board: PathBuf,
        /// A library file
        library: PathBuf,
    },
    /// Look through a folder: which files are whole, which are refused and why, which are the same
    ///
    /// Reads the files that are called .emn, .emp, .bdf, .ldf, .idb, .idl or .idf, in any letter case, in the folder and all
    /// folders in it. Symbolic links are not followed. Nothing is changed or deleted.
    Shelf {
        /// The folder to look through
        #[arg(value_name = "DIR")]
        folder: PathBuf,
        /// Read every file, whatever it is called
        #[arg(long)]
        all: bool,
        /// Print JSON, with every file's size and SHA-256
        #[arg(long)]
        json: bool,
        /// Write a page for an auditor, which needs nothing but a browser or a printer
        #[arg(long, value_name = "FILE.html")]
        report: Option<PathBuf>,
    },
}
