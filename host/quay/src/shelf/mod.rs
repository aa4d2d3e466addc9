//! A shelf: every IDF file below a folder, what is wrong with it, and which files are the same.

mod json;
mod page;
mod survey;
mod text;

use std::fs;
use std::io::Write;
use std::path::{Path, PathBuf};

use quayladle::{Refusal, Reply, Verdict};

use crate::ending::{tell, Ending, Failure};

/// What a shelf holds.
pub struct Shelf {
    /// The folder, as it can be printed.
    pub folder: String,
    /// Every file that could be read, by name.
    pub files: Vec<Filed>,
    /// Files that say the same list of records, two or more each.
    pub groups: Vec<Group>,
    /// What could not be read.
    pub unreadable: Vec<Unreadable>,
    /// How many files were passed over because of their names.
    pub passed_over: usize,
}

/// A file or folder that could not be read.
pub struct Unreadable {
    /// Its name from the folder on, as it can be printed.
    pub name: String,
    /// Why not.
    pub why: String,
}

/// A file on the shelf.
pub struct Filed {
    /// Its name from the folder on, as it can be printed.
    pub name: String,
    /// Where it stands.
    pub path: PathBuf,
    /// Its size in bytes.
    pub size: u64,
    /// Its SHA-256; none if it is over the limit and was not read whole.
    pub sha256: Option<String>,
    /// What checking it answered.
    pub reply: Reply,
    /// The SHA-256 of its canonical text; none if it is refused, or if that text is over the limit.
    pub canonical: Option<String>,
}

impl Filed {
    /// Its refusal, if it has one.
    pub fn refusal(&self) -> Option<Refusal> {
        self.reply.done().err()
    }
}

/// Files with one canonical text. The first is the one to keep.
pub struct Group {
    /// The place of the first among the files.
    pub first: usize,
    /// The others, each with what comparing it with the first answered.
    pub others: Vec<Member>,
}

/// A file that has the canonical text of another.
pub struct Member {
    /// Its place among the files.
    pub file: usize,
    /// The proved comparison's answer, the first file of the group against this one.
    pub verdict: Verdict,
}

impl Shelf {
    /// The sizes of all files, together.
    pub fn size(&self) -> u64 {
        self.files.iter().map(|file| file.size).sum()
    }

    /// How many files are whole.
    pub fn whole(&self) -> usize {
        self.files.iter().filter(|file| file.reply.number == 0).count()
    }

    /// The files that are refused, with their refusals.
    pub fn refused(&self) -> impl Iterator<Item = (&Filed, Refusal)> {
        self.files.iter().filter_map(|file| file.refusal().map(|refusal| (file, refusal)))
    }

    /// The bytes of all files but the first of each group.
    pub fn freed(&self) -> u64 {
        self.groups.iter().map(|group| self.freed_by(group)).sum()
    }

    /// The bytes of all files of a group but the first.
    pub fn freed_by(&self, group: &Group) -> u64 {
        group.others.iter().map(|other| self.files[other.file].size).sum()
    }

    /// Whether a file has the very bytes of the first of its group.
    pub fn is_copy(&self, group: &Group, member: &Member) -> bool {
        self.files[member.file].sha256 == self.files[group.first].sha256
    }
}

/// Looks through a folder, and says what it holds as text or JSON, and as a page if asked for.
pub fn command(
    folder: &Path,
    all: bool,
    as_json: bool,
    report: Option<&Path>,
    out: &mut impl Write,
) -> Result<Ending, Failure> {
    let shelf = survey::survey(folder, all)?;
    for Unreadable { name, why } in &shelf.unreadable {
        tell(&format!("{name}: {why}"));
    }
    if let Some(path) = report {
        fs::write(path, page::page(&shelf)).map_err(Failure::of_file(path))?;
    }
    match as_json {
        true => json::print(&shelf, out)?,
        false => text::print(&shelf, out)?,
    }
    Ok(if shelf.unreadable.is_empty() { Ending::Accepted } else { Ending::Failed })
}
