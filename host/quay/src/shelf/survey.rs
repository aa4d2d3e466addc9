//! Looking through a folder: find the files, read each, group those with one canonical text, and
//! have the proved comparison decide on each group.

use std::collections::BTreeMap;
use std::fs;
use std::io;
use std::path::{Path, PathBuf};

use indicatif::{ProgressBar, ProgressStyle};
use quayladle::{Reply, LARGEST_FILE};
use rayon::prelude::*;
use sha2::{Digest, Sha256};
use walkdir::{DirEntry, WalkDir};

use super::{Filed, Group, Member, Shelf, Unreadable};
use crate::ending::Failure;
use crate::input;
use crate::showing::shown;

/// What IDF files are called.
const NAMES: [&str; 7] = ["emn", "emp", "bdf", "ldf", "idb", "idl", "idf"];

/// What comparing two files answers if they are the same.
const SAME: Reply = Reply { number: 0, line: 0, count: 1 };

/// Everything that a folder holds.
pub fn survey(folder: &Path, all: bool) -> Result<Shelf, Failure> {
    fs::read_dir(folder).map_err(Failure::of_file(folder))?;
    let Found { paths, passed_over, mut unreadable } = find(folder, all);
    let bar = progress(paths.len());
    let read: Vec<Result<Filed, Unreadable>> =
        paths.into_par_iter().map(|path| filed(folder, path)).inspect(|_| bar.inc(1)).collect();
    bar.finish_and_clear();
    let files = kept(read, &mut unreadable);
    let groups = candidates(&files).into_par_iter().map(|places| compared(&files, places));
    let mut groups: Vec<Group> =
        kept(groups.collect(), &mut unreadable).into_iter().flatten().collect();
    groups.sort_by_key(|group| group.first);
    Ok(Shelf { folder: shown(folder), files, groups, unreadable, passed_over })
}

/// The results, without those that could not be read.
fn kept<T>(results: Vec<Result<T, Unreadable>>, unreadable: &mut Vec<Unreadable>) -> Vec<T> {
    let keep = |result: Result<T, Unreadable>| result.map_err(|why| unreadable.push(why)).ok();
    results.into_iter().filter_map(keep).collect()
}

/// What stands in a folder and the folders in it.
#[derive(Default)]
struct Found {
    /// The files to read, by name.
    paths: Vec<PathBuf>,
    /// How many others there are.
    passed_over: usize,
    /// What could not be listed.
    unreadable: Vec<Unreadable>,
}

fn find(folder: &Path, all: bool) -> Found {
    let mut found = Found::default();
    for entry in WalkDir::new(folder).sort_by_file_name() {
        match entry {
            Ok(entry) if entry.file_type().is_dir() => {}
            Ok(entry) if is_wanted(&entry, all) => found.paths.push(entry.into_path()),
            Ok(_) => found.passed_over += 1,
            Err(error) => {
                let name = name_in(folder, error.path().unwrap_or(folder));
                found.unreadable.push(Unreadable { name, why: io::Error::from(error).to_string() });
            }
        }
    }
    found
}

fn is_wanted(entry: &DirEntry, all: bool) -> bool {
    let ending = entry.path().extension().map(|ending| ending.to_ascii_lowercase());
    let is_named = ending.is_some_and(|ending| NAMES.iter().any(|name| ending == *name));
    entry.file_type().is_file() && (all || is_named)
}

/// A path's name from the folder on.
fn name_in(folder: &Path, path: &Path) -> String {
    shown(path.strip_prefix(folder).unwrap_or(path))
}

/// A bar on a terminal; on anything else it is not drawn.
fn progress(length: usize) -> ProgressBar {
    let style = ProgressStyle::with_template("{bar:40} {pos} of {len} files, {eta} left");
    ProgressBar::new(length as u64).with_style(style.expect("a template of known parts"))
}

/// One file, read and checked.
fn filed(folder: &Path, path: PathBuf) -> Result<Filed, Unreadable> {
    let name = name_in(folder, &path);
    let read = || -> io::Result<_> { Ok((fs::metadata(&path)?.len(), input::limited(&path)?)) };
    let (listed, bytes) =
        read().map_err(|error| Unreadable { name: name.clone(), why: error.to_string() })?;
    let is_large = bytes.len() > LARGEST_FILE;
    let (reply, canonical) = match quayladle::rows(&bytes) {
        Ok(rows) => (accepted(rows.len()), quayladle::text_of(&rows.concat(), &bytes).ok()),
        Err(refusal) => (refusal.into(), None),
    };
    Ok(Filed {
        name,
        path,
        size: if is_large { listed } else { bytes.len() as u64 },
        sha256: (!is_large).then(|| sha256(&bytes)),
        reply,
        canonical: canonical.map(|text| sha256(&text)),
    })
}

/// What checking a file of so many rows answers.
fn accepted(rows: usize) -> Reply {
    Reply { number: 0, line: 0, count: rows as u64 }
}

fn sha256(bytes: &[u8]) -> String {
    format!("{:x}", Sha256::digest(bytes))
}

/// The places of files that may be the same, two or more each.
fn candidates(files: &[Filed]) -> Vec<Vec<usize>> {
    let mut alike: BTreeMap<String, Vec<usize>> = BTreeMap::new();
    for (place, file) in files.iter().enumerate() {
        if let Some(mark) = mark(file) {
            alike.entry(mark).or_default().push(place);
        }
    }
    alike.into_values().filter(|places| places.len() > 1).collect()
}

/// What files that are the same share: the canonical text or, where that is over the limit, the
/// number of rows. A refused file has nothing of the kind.
fn mark(file: &Filed) -> Option<String> {
    match &file.canonical {
        Some(text) => Some(text.clone()),
        None => file.reply.done().ok().map(|rows| format!("{rows} rows")),
    }
}

/// The groups that the proved comparison finds among files: what they share only makes it worth
/// asking.
fn compared(files: &[Filed], mut left: Vec<usize>) -> Result<Vec<Group>, Unreadable> {
    let mut groups = Vec::new();
    while left.len() > 1 {
        let group = same_as_first(files, &left)?;
        let is_in = |place: usize| group.others.iter().any(|other| other.file == place);
        left.retain(|&place| place != group.first && !is_in(place));
        if !group.others.is_empty() {
            groups.push(group);
        }
    }
    Ok(groups)
}

/// The files that are the same as the first of them.
fn same_as_first(files: &[Filed], places: &[usize]) -> Result<Group, Unreadable> {
    let first = again(&files[places[0]])?;
    let mut others = Vec::new();
    for &file in &places[1..] {
        let verdict = quayladle::same(&first, &again(&files[file])?);
        if verdict.reply == SAME {
            others.push(Member { file, verdict });
        }
    }
    Ok(Group { first: places[0], others })
}

/// The bytes of a file that was read before, if they are still the same.
fn again(file: &Filed) -> Result<Vec<u8>, Unreadable> {
    let fault = |why: String| Unreadable { name: file.name.clone(), why };
    let bytes = input::limited(&file.path).map_err(|error| fault(error.to_string()))?;
    match file.sha256.as_ref() == Some(&sha256(&bytes)) {
        true => Ok(bytes),
        false => Err(fault("changed while the shelf was read".to_string())),
    }
}

#[cfg(test)]
mod tests {
    use super::*;

    /// Files whose canonical text is over the limit have no text to be grouped by.
    #[test]
    fn files_are_compared_without_their_text() {
        let folder = std::env::temp_dir().join(format!("quay-{}", std::process::id()));
        fs::create_dir_all(&folder).expect("a folder");
        let library = |name: &str, system: &str| {
            let path = folder.join(name);
            let title = format!("LIBRARY_FILE 3 {system} 2024/05/06.07:08:09 1");
            fs::write(&path, format!(".HEADER\n{title}\n.END_HEADER\n")).expect("a file");
            let file = filed(&folder, path).ok().expect("a file that can be read");
            Filed { canonical: None, ..file }
        };
        let files = [("a", "s"), ("b", "t"), ("c", "\"s\""), ("d", "\"t\""), ("e", "u")]
            .map(|(name, system)| library(name, system));
        let places = candidates(&files);
        assert_eq!(places, [[0, 1, 2, 3, 4]]);
        let groups = compared(&files, places[0].clone()).ok().expect("files that did not change");
        let found: Vec<_> =
            groups.iter().map(|group| (group.first, group.others[0].file)).collect();
        assert_eq!(found, [(0, 2), (1, 3)]);
        assert!(groups.iter().all(|group| group.others.len() == 1));
        fs::remove_dir_all(&folder).expect("the folder goes");
    }
}
