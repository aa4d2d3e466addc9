//! The two libraries asked the same: one operation on one subject, its reply as four numbers.

use std::path::Path;
use std::{fmt, fs, io};

use generate::windows_copy;
use second::Reply;

use crate::files::{self, components_in, Placed};
use crate::sheet::Sheet;

/// Number, line, count, and which of two files was refused.
pub type Answer = [u64; 4];

/// Who answers.
#[derive(Debug, Clone, Copy, PartialEq, Eq)]
pub enum Side {
    /// The proved library.
    Proved,
    /// The second reader.
    Second,
}

impl Side {
    /// Both.
    pub const ALL: [Side; 2] = [Side::Proved, Side::Second];
}

impl fmt::Display for Side {
    fn fmt(&self, f: &mut fmt::Formatter) -> fmt::Result {
        f.pad(match self {
            Side::Proved => "proved",
            Side::Second => "second",
        })
    }
}

/// What is asked.
#[derive(Debug, Clone, Copy, PartialEq, Eq)]
pub enum Operation {
    /// Whether the file is accepted.
    Check,
    /// The file's rows, into a lent slice.
    Read,
    /// The text of the file's rows, into a lent slice.
    Write,
    /// Whether the file and its respaced copy say the same.
    Same,
    /// Whether each placement has its entry in the library.
    Judge,
}

impl Operation {
    /// Every operation.
    pub const ALL: [Operation; 5] =
        [Operation::Check, Operation::Read, Operation::Write, Operation::Same, Operation::Judge];

    /// Whether an answer is what every subject should get: done, and of two files to compare that they say the same.
    pub fn is_done(self, answer: &Answer) -> bool {
        answer[0] == 0 && (self != Operation::Same || answer[2] == 1)
    }
}

impl fmt::Display for Operation {
    fn fmt(&self, f: &mut fmt::Formatter) -> fmt::Result {
        f.pad(match self {
            Operation::Check => "check",
            Operation::Read => "read",
            Operation::Write => "write",
            Operation::Same => "same",
            Operation::Judge => "judge",
        })
    }
}

/// What lent numbers and bytes are filled with, so that their memory is there before the clock starts.
const MARK: u8 = b'?';

/// What is lent to an operation.
#[derive(PartialEq, Eq)]
pub struct Lent {
    /// For rows.
    pub rows: Vec<i64>,
    /// For text.
    pub text: Vec<u8>,
}

/// What operations are run on, all of it accepted.
pub struct Subject {
    /// The file.
    pub file: Vec<u8>,
    copy: Vec<u8>,
    /// The library by which a board or panel is judged.
    pub library: Option<Vec<u8>>,
    rows: Vec<i64>,
    text_len: usize,
}

impl Subject {
    /// A board or panel of a size, with a library of a quarter of it.
    pub fn placed(kind: Placed, size: usize) -> Subject {
        let parts = components_in(size / 4);
        let library = files::library(size / 4, parts);
        Subject::new(files::placed(kind, size, parts), Some(library))
    }

    /// A library of a size.
    pub fn library(size: usize) -> Subject {
        Subject::new(files::library(size, components_in(size)), None)
    }

    /// A board of so many placements, with a library of so many components.
    pub fn counted(placements: usize, components: usize) -> Subject {
        let size = files::LARGEST / files::MOST_COMPONENTS * components;
        let library = files::library(size, components);
        Subject::new(files::board_of(placements, components), Some(library))
    }

    /// A library of a size that is full of components, to be checked.
    pub fn crowded(size: usize) -> Subject {
        Subject::to_check(files::crowded(size))
    }

    fn to_check(file: Vec<u8>) -> Subject {
        Subject { file, copy: Vec::new(), library: None, rows: Vec::new(), text_len: 0 }
    }

    fn new(Sheet { file, copy, .. }: Sheet, library: Option<Sheet>) -> Subject {
        let library = library.map(|sheet| sheet.file);
        Subject::accepted(file, copy, library).expect("made files are accepted")
    }

    /// A subject of these files, unless the second reader refuses one of them.
    fn accepted(file: Vec<u8>, copy: Vec<u8>, library: Option<Vec<u8>>) -> Result<Subject, Reply> {
        let rows = second::rows(&file)?.concat();
        let text_len = second::canon(&file)?.len();
        if let Some(entries) = &library {
            second::rows(entries)?;
        }
        Ok(Subject { file, copy, library, rows, text_len })
    }

    /// The subject with the Windows copy of each of its files; a refusal is said in words.
    pub fn windows(&self) -> Result<Subject, String> {
        let library = self.library.as_deref().map(windows_copy);
        let (file, copy) = (windows_copy(&self.file), windows_copy(&self.copy));
        Subject::accepted(file, copy, library).map_err(|Reply { number, line, .. }| {
            format!("the second reader refuses it with {number} at line {line}")
        })
    }

    /// Keeps the subject in a folder.
    pub fn save(&self, folder: &Path) -> io::Result<()> {
        let rows: Vec<u8> = self.rows.iter().flat_map(|number| number.to_le_bytes()).collect();
        fs::write(folder.join("file"), &self.file)?;
        fs::write(folder.join("copy"), &self.copy)?;
        fs::write(folder.join("library"), self.entries())?;
        fs::write(folder.join("rows"), rows)?;
        fs::write(folder.join("text"), self.text_len.to_le_bytes())
    }

    /// A subject that was kept in a folder.
    pub fn load(folder: &Path) -> io::Result<Subject> {
        let numbers = |name: &str| -> io::Result<Vec<i64>> {
            let bytes = fs::read(folder.join(name))?;
            let number = |bytes: &[u8]| bytes.try_into().map_or(0, i64::from_le_bytes);
            Ok(bytes.chunks(8).map(number).collect())
        };
        Ok(Subject {
            file: fs::read(folder.join("file"))?,
            copy: fs::read(folder.join("copy"))?,
            library: Some(fs::read(folder.join("library"))?),
            rows: numbers("rows")?,
            text_len: numbers("text")?.first().map_or(0, |&length| length as usize),
        })
    }

    /// The library of this subject by itself.
    pub fn only_library(&self) -> Option<Subject> {
        self.library.clone().map(Subject::to_check)
    }

    /// Whether the operation can be asked.
    pub fn allows(&self, operation: Operation) -> bool {
        operation != Operation::Judge || self.library.is_some()
    }

    /// The bytes that an operation goes through: what it reads, or the text that it writes.
    pub fn bytes(&self, operation: Operation) -> usize {
        match operation {
            Operation::Check | Operation::Read => self.file.len(),
            Operation::Write => self.text_len,
            Operation::Same => self.file.len() + self.copy.len(),
            Operation::Judge => self.file.len() + self.entries().len(),
        }
    }

    /// The lines that an operation goes through; a text has as many as the file whose rows it says.
    pub fn lines(&self, operation: Operation) -> usize {
        let lines = |file: &[u8]| file.iter().filter(|&&byte| byte == b'\n').count();
        match operation {
            Operation::Check | Operation::Read | Operation::Write => lines(&self.file),
            Operation::Same => lines(&self.file) + lines(&self.copy),
            Operation::Judge => lines(&self.file) + lines(self.entries()),
        }
    }

    /// What an operation needs to be lent.
    pub fn lent(&self, operation: Operation) -> Lent {
        let (rows, text) = match operation {
            Operation::Read => (self.rows.len(), 0),
            Operation::Write => (0, self.text_len),
            _ => (0, 0),
        };
        Lent { rows: vec![MARK.into(); rows], text: vec![MARK; text] }
    }

    /// Asks one side.
    pub fn ask(&self, side: Side, operation: Operation, lent: &mut Lent) -> Answer {
        match side {
            Side::Proved => self.ask_proved(operation, lent),
            Side::Second => self.ask_second(operation, lent),
        }
    }

    fn ask_proved(&self, operation: Operation, lent: &mut Lent) -> Answer {
        use quayladle::{check, judge, read, same, write, Reply, Verdict};
        let one = |reply: Reply| [reply.number, reply.line, reply.count, 0];
        let two = |Verdict { reply, which }| [reply.number, reply.line, reply.count, which];
        match operation {
            Operation::Check => one(check(&self.file)),
            Operation::Read => one(read(&self.file, &mut lent.rows)),
            Operation::Write => one(write(&self.rows, &self.file, &mut lent.text)),
            Operation::Same => two(same(&self.file, &self.copy)),
            Operation::Judge => two(judge(&self.file, self.entries())),
        }
    }

    fn ask_second(&self, operation: Operation, lent: &mut Lent) -> Answer {
        use second::{check, judge, read, same, write};
        let one = |reply: Reply| [reply.number, reply.line, reply.count, 0];
        let two = |(reply, which): (Reply, u64)| [reply.number, reply.line, reply.count, which];
        match operation {
            Operation::Check => one(check(&self.file)),
            Operation::Read => one(read(&self.file, &mut lent.rows)),
            Operation::Write => one(write(&self.rows, &self.file, &mut lent.text)),
            Operation::Same => two(same(&self.file, &self.copy)),
            Operation::Judge => two(judge(&self.file, self.entries())),
        }
    }

    fn entries(&self) -> &[u8] {
        self.library.as_deref().unwrap_or_default()
    }
}
