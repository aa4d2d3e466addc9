//! Instructions in place of time, as valgrind counts them: the same at every run, whatever else the machine does.

use std::path::Path;
use std::process::{self, Command};
use std::{env, fs};

use crate::asking::{Answer, Lent, Operation, Side, Subject};
use crate::bounds;
use crate::files::{LARGEST, MIB};
use crate::speeds::Kind;
use crate::table::{figure, Table};
use crate::windows::{self, Pair};

/// What is said under the table.
const NOTE: &str = "\
Instructions of one run, as valgrind's callgrind counts them, for a byte of those that an operation goes through. Ratio: the proved \
library's over the second reader's. Growth: the proved library's for a byte of 16 MiB over that of 1 MiB. How long an instruction \
takes, caches among the reasons, is no part of them.";

/// The function whose instructions are counted, as callgrind knows it.
const COUNTED: &str = "--toggle-collect=*counts*asked*";

/// One operation on one side, for a process that valgrind runs.
#[derive(Debug, Clone, PartialEq, Eq)]
pub struct One {
    /// Who answers.
    pub side: Side,
    /// What is asked.
    pub operation: Operation,
    /// The folder that has the subject.
    pub folder: String,
}

/// What one operation takes on one file.
#[derive(Debug, Clone, Copy)]
pub struct Count {
    /// The kind of file.
    pub kind: Kind,
    /// What was asked.
    pub operation: Operation,
    /// The size asked for.
    pub size: usize,
    /// The bytes that the operation goes through.
    pub bytes: usize,
    /// The lines that it goes through.
    pub lines: usize,
    /// The instructions of the proved library and of the second reader.
    pub sides: [u64; 2],
}

impl Count {
    /// The instructions of both sides for a byte.
    fn per_byte(&self) -> [f64; 2] {
        self.sides.map(|count| count as f64 / self.bytes as f64)
    }

    /// The instructions of both sides for a line.
    pub fn per_line(&self) -> [f64; 2] {
        self.sides.map(|count| count as f64 / self.lines as f64)
    }
}

/// What is counted: everything in here and nothing else.
#[inline(never)]
fn asked(subject: &Subject, side: Side, operation: Operation, lent: &mut Lent) -> Answer {
    subject.ask(side, operation, lent)
}

/// Asks once; what went wrong is said in words.
pub fn ask(one: &One) -> Result<(), String> {
    let loaded = Subject::load(Path::new(&one.folder));
    let subject = loaded.map_err(|fault| format!("{}: {fault}", one.folder))?;
    let mut lent = subject.lent(one.operation);
    let answer = asked(&subject, one.side, one.operation, &mut lent);
    if one.operation.is_done(&answer) {
        return Ok(());
    }
    Err(format!("{} of {} answered {answer:?}, which is no acceptance", one.operation, one.side))
}

/// Counts and prints; with `quick` at 1 MiB only.
pub fn run(quick: bool) -> Result<(), String> {
    let folder = env::temp_dir().join(format!("quayladle-bench-{}", process::id()));
    fs::create_dir(&folder).map_err(|fault| format!("{}: {fault}", folder.display()))?;
    let printed = print(&folder, if quick { &[MIB] } else { &[MIB, LARGEST] });
    // What cannot be taken away stays in the folder for such things.
    let _ = fs::remove_dir_all(&folder);
    printed
}

/// Prints table by table, each as soon as it is counted, by way of a folder for the subjects.
fn print(folder: &Path, sizes: &[usize]) -> Result<(), String> {
    let files = files(folder, sizes)?;
    println!("## Instructions\n\n{}\n{NOTE}", table(&files).text());
    let pairs = pairs(folder, &files)?;
    println!("\n## Windows copies\n\n{}\n{}", windows::table(&pairs).text(), windows::NOTE);
    println!("\n## Bounds\n\n{}", bounds::windows(&pairs));
    Ok(())
}

/// What every operation takes on every kind of file, at these sizes.
fn files(folder: &Path, sizes: &[usize]) -> Result<Vec<Count>, String> {
    let mut counts = Vec::new();
    for kind in Kind::ALL {
        for &size in sizes {
            counts.extend(counted(folder, kind, size, &kind.subject(size))?);
        }
    }
    Ok(counts)
}

/// The counts at 1 MiB beside those of the Windows copies.
fn pairs(folder: &Path, files: &[Count]) -> Result<Vec<Pair>, String> {
    let mut pairs = Vec::new();
    for kind in Kind::ALL {
        let name = format!("Windows copy of a {}", kind.sized(MIB));
        eprintln!("bench: making the {name}");
        let copied = kind.subject(MIB).windows();
        let copies = copied.and_then(|subject| counted(folder, kind, MIB, &subject));
        let copies = copies.map_err(|fault| format!("{name}: {fault}"))?;
        let files = files.iter().filter(|file| (file.kind, file.size) == (kind, MIB));
        pairs.extend(files.zip(copies).map(|(&file, copy)| Pair { file, copy }));
    }
    Ok(pairs)
}

/// What each operation takes on a subject, which stands in a folder while it is counted.
fn counted(
    folder: &Path,
    kind: Kind,
    size: usize,
    subject: &Subject,
) -> Result<Vec<Count>, String> {
    subject.save(folder).map_err(|fault| format!("{}: {fault}", folder.display()))?;
    let mut counts = Vec::new();
    for operation in Operation::ALL {
        if subject.allows(operation) {
            eprintln!("bench: counting {operation} of a {}", kind.sized(size));
            let (bytes, lines) = (subject.bytes(operation), subject.lines(operation));
            let sides = sides(folder, operation)?;
            counts.push(Count { kind, operation, size, bytes, lines, sides });
        }
    }
    Ok(counts)
}

/// The table of files.
fn table(counts: &[Count]) -> Table {
    let names = ["file", "operation", "size", "proved", "second", "ratio", "growth"];
    let mut table = Table::new(2, &names);
    for count in counts {
        let alike = |other: &&Count| (other.kind, other.operation) == (count.kind, count.operation);
        let smallest = counts.iter().find(alike).map(|first| first.per_byte()[0]);
        let [proved, second] = count.per_byte();
        table.add([
            count.kind.name().to_string(),
            count.operation.to_string(),
            format!("{} MiB", count.size / MIB),
            format!("{proved:.1}"),
            format!("{second:.1}"),
            figure(Some(proved / second)),
            figure(smallest.map(|smallest| proved / smallest)),
        ]);
    }
    table
}

/// The instructions of both sides.
fn sides(folder: &Path, operation: Operation) -> Result<[u64; 2], String> {
    let mut counts = [0; 2];
    for (side, count) in Side::ALL.into_iter().zip(&mut counts) {
        *count = instructions(folder, side, operation)?;
    }
    Ok(counts)
}

/// The instructions of one side, by this program under valgrind.
fn instructions(folder: &Path, side: Side, operation: Operation) -> Result<u64, String> {
    let program = env::current_exe().map_err(|fault| fault.to_string())?;
    let run = Command::new("valgrind")
        .args(["--tool=callgrind", "--callgrind-out-file=/dev/null", COUNTED])
        .arg(program)
        .args(["--one", &side.to_string(), &operation.to_string()])
        .arg(folder)
        .output()
        .map_err(|fault| format!("valgrind (Debian's package of that name): {fault}"))?;
    let said = String::from_utf8_lossy(&run.stderr);
    if !run.status.success() {
        return Err(fault(&said));
    }
    collected(&said).ok_or_else(|| fault(&said))
}

/// What went wrong: what this program said of it under valgrind, else valgrind's last line.
fn fault(said: &str) -> String {
    match said.lines().find_map(|line| line.strip_prefix("bench: ")) {
        Some(own) => own.to_string(),
        None => format!("valgrind: {}", said.lines().last().unwrap_or("nothing said")),
    }
}

/// The number that callgrind says it has collected, unless it is 0.
fn collected(said: &str) -> Option<u64> {
    let line = said.lines().find(|line| line.contains("Collected :"))?;
    let count = line.rsplit(' ').next()?.parse().ok()?;
    (count > 0).then_some(count)
}

#[cfg(test)]
mod tests {
    use super::*;

    #[test]
    fn the_number_collected_is_read() {
        assert_eq!(collected("==7== \n==7== Collected : 72435132\n==7== \n"), Some(72_435_132));
        assert_eq!(collected("==7== Collected : 0\n"), None);
        assert_eq!(collected("==7== Collected : many\n"), None);
        assert_eq!(collected(""), None);
    }

    #[test]
    fn what_went_wrong_is_the_programs_own_word() {
        assert_eq!(fault("==7== a\nbench: b\n==7== Collected : 8\n"), "b");
        assert_eq!(fault("==7== a\n==7== c\n"), "valgrind: ==7== c");
        assert_eq!(fault(""), "valgrind: nothing said");
    }

    /// A check of a side, for a subject that is kept in a folder.
    fn check(side: Side, folder: &Path) -> One {
        One { side, operation: Operation::Check, folder: folder.display().to_string() }
    }

    /// Does something with a folder that is there as long.
    fn with_folder(name: &str, work: impl FnOnce(&Path)) {
        let folder = env::temp_dir().join(format!("quayladle-bench-{name}-{}", process::id()));
        fs::create_dir(&folder).expect("a folder");
        work(&folder);
        fs::remove_dir_all(&folder).expect("the folder taken away");
        assert!(ask(&check(Side::Proved, &folder)).is_err(), "the folder is gone");
    }

    #[test]
    fn a_subject_is_asked_once_more_from_its_folder() {
        with_folder("asked", |folder| {
            let subject = Kind::Board.subject(MIB / 16);
            for subject in [subject.windows().expect("an accepted Windows copy"), subject] {
                subject.save(folder).expect("a subject kept");
                for side in Side::ALL {
                    for operation in Operation::ALL {
                        let one = One { operation, ..check(side, folder) };
                        assert_eq!(ask(&one), Ok(()), "{one:?}");
                    }
                }
            }
        });
    }

    #[test]
    fn a_refusal_is_no_count() {
        with_folder("refused", |folder| {
            let mut subject = Kind::Board.subject(MIB / 16);
            subject.file[0] = 0;
            subject.save(folder).expect("a subject kept");
            for side in Side::ALL {
                let said = format!("check of {side} answered [3, 1, 0, 0], which is no acceptance");
                assert_eq!(ask(&check(side, folder)), Err(said));
            }
        });
    }
}
