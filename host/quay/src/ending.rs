//! How a command ends: its exit code, or what went wrong outside of the files' contents.

use std::fmt;
use std::io;
use std::path::{Path, PathBuf};
use std::process::ExitCode;

use crate::showing::shown;

/// The end of a command that could do its work, from good to bad.
#[derive(Debug, Clone, Copy, PartialEq, Eq, PartialOrd, Ord)]
pub enum Ending {
    /// All is accepted.
    Accepted,
    /// A file is refused, or the answer is no.
    Refused,
    /// Something could not be read or written.
    Failed,
}

impl From<Ending> for ExitCode {
    fn from(ending: Ending) -> ExitCode {
        ExitCode::from(ending as u8)
    }
}

/// What keeps a command from its work.
#[derive(Debug)]
pub enum Failure {
    /// A file that cannot be opened, read or written.
    File(PathBuf, io::Error),
    /// A file of rows with something else in it, and on which line.
    NoRows(PathBuf, usize),
    /// A file of rows without their lines, as older versions printed them.
    OldRows(PathBuf),
    /// Standard output does not take what is written.
    Output(io::Error),
}

impl Failure {
    /// What went wrong with a file, for `map_err`.
    pub fn of_file(path: &Path) -> impl FnOnce(io::Error) -> Failure + '_ {
        |error| Failure::File(path.to_path_buf(), error)
    }

    /// Whether the reader of standard output has gone, which is no fault.
    pub fn is_broken_pipe(&self) -> bool {
        matches!(self, Failure::Output(error) if error.kind() == io::ErrorKind::BrokenPipe)
    }
}

impl From<io::Error> for Failure {
    fn from(error: io::Error) -> Self {
        Failure::Output(error)
    }
}

impl fmt::Display for Failure {
    fn fmt(&self, f: &mut fmt::Formatter) -> fmt::Result {
        match self {
            Failure::File(path, error) => write!(f, "{}: {error}", shown(path)),
            Failure::NoRows(path, line) => {
                write!(f, "{}:{line}: a row is eleven whole numbers of 64 bits", shown(path))
            }
            Failure::OldRows(path) => {
                write!(
                    f,
                    "{}: rows of ten numbers, as older versions printed them; a row has eleven, the last its line: \
                    print the rows again with `quay rows`",
                    shown(path)
                )
            }
            Failure::Output(error) => write!(f, "standard output: {error}"),
        }
    }
}

/// Tells people what went wrong; where nobody listens, that is no further fault.
pub fn tell(words: &impl fmt::Display) {
    let _ = io::Write::write_fmt(&mut io::stderr(), format_args!("quay: {words}\n"));
}
