//! The commands on one file or two.

use std::io::Write;
use std::path::{Path, PathBuf};

use quayladle::{Reason, Refusal, Reply, Verdict, LINE, STRIDE};

use crate::ending::{tell, Ending, Failure};
use crate::input::{self, Numbers};
use crate::showing::{counted, plain, plain_verdict, printable, refused, shown};

/// The kind of a placement's first row: package, part and reference.
const PLACEMENT: i64 = 131;

/// A line for each file; one that cannot be read does not keep the others from their answer.
pub fn check(files: &[PathBuf], is_plain: bool, out: &mut impl Write) -> Result<Ending, Failure> {
    let mut ending = Ending::Accepted;
    for path in files {
        let of_file = match input::bytes(path) {
            Ok(file) => say_checked(path, quayladle::check(&file), is_plain, out)?,
            Err(failure) => {
                tell(&failure);
                Ending::Failed
            }
        };
        ending = ending.max(of_file);
    }
    Ok(ending)
}

fn say_checked(
    path: &Path,
    reply: Reply,
    is_plain: bool,
    out: &mut impl Write,
) -> Result<Ending, Failure> {
    let name = shown(path);
    match reply.done() {
        _ if is_plain => writeln!(out, "{}", plain(reply))?,
        Ok(rows) => writeln!(out, "{name}: accepted, {}", counted(rows, "row"))?,
        Err(refusal) => writeln!(out, "{}", refused(&name, refusal))?,
    }
    Ok(if reply.number == 0 { Ending::Accepted } else { Ending::Refused })
}

/// The canonical text of a file.
pub fn canon(path: &Path, is_plain: bool, out: &mut impl Write) -> Result<Ending, Failure> {
    match quayladle::canon(&input::bytes(path)?) {
        Ok(text) => {
            out.write_all(&text)?;
            Ok(Ending::Accepted)
        }
        Err(refusal) => say_refused(path, refusal, is_plain, out),
    }
}

/// The rows of a file, eleven numbers a line.
pub fn rows(path: &Path, is_plain: bool, out: &mut impl Write) -> Result<Ending, Failure> {
    match quayladle::rows(&input::bytes(path)?) {
        Ok(rows) => {
            for row in rows {
                writeln!(out, "{}", row.map(|number| number.to_string()).join(" "))?;
            }
            Ok(Ending::Accepted)
        }
        Err(refusal) => say_refused(path, refusal, is_plain, out),
    }
}

/// The canonical text of rows over the bytes of a file.
pub fn write(rows: &Path, text: &Path, out: &mut impl Write) -> Result<Ending, Failure> {
    let Numbers { list, are_tens } = input::numbers(rows)?;
    let written = quayladle::text_of(&list, &input::bytes(text)?);
    // Rows of eleven may be laid out by tens: then they are whole rows, and mean something.
    let is_meant = !matches!(written, Err(Refusal { reason: Reason::Meaningless, .. }));
    if are_tens && !(list.len() % STRIDE == 0 && is_meant) {
        return Err(Failure::OldRows(rows.to_path_buf()));
    }
    match written {
        Ok(canonical) => {
            out.write_all(&canonical)?;
            Ok(Ending::Accepted)
        }
        Err(refusal) => {
            tell(&refused(&shown(rows), refusal));
            say_refused(rows, refusal, true, out)
        }
    }
}

/// Where a text or rows were asked for, words go to standard error, and numbers, if asked for, to
/// standard output.
fn say_refused(
    path: &Path,
    refusal: Refusal,
    is_plain: bool,
    out: &mut impl Write,
) -> Result<Ending, Failure> {
    if is_plain {
        writeln!(out, "{}", plain(refusal.into()))?;
    } else {
        tell(&refused(&shown(path), refusal));
    }
    Ok(Ending::Refused)
}

/// Whether two files mean the same.
pub fn same(paths: [&Path; 2], is_plain: bool, out: &mut impl Write) -> Result<Ending, Failure> {
    let files = [input::bytes(paths[0])?, input::bytes(paths[1])?];
    say_same(paths, quayladle::same(&files[0], &files[1]), is_plain, out)
}

/// Says what comparing two files answered.
pub fn say_same(
    paths: [&Path; 2],
    verdict: Verdict,
    is_plain: bool,
    out: &mut impl Write,
) -> Result<Ending, Failure> {
    let [first, second] = paths.map(shown);
    match verdict.reply.done() {
        _ if is_plain => writeln!(out, "{}", plain_verdict(verdict))?,
        Ok(0) => writeln!(out, "{first}, {second}: not the same")?,
        Ok(_) => writeln!(out, "{first}, {second}: the same")?,
        Err(refusal) => {
            writeln!(out, "{}", refused(refused_name(&first, &second, verdict), refusal))?
        }
    }
    Ok(compared(verdict))
}

/// How comparing two files ends.
pub fn compared(verdict: Verdict) -> Ending {
    match verdict.reply.done() {
        Ok(1) => Ending::Accepted,
        _ => Ending::Refused,
    }
}

/// Whether each placement of a board or panel has its entry in a library.
pub fn judge(paths: [&Path; 2], is_plain: bool, out: &mut impl Write) -> Result<Ending, Failure> {
    let files = [input::bytes(paths[0])?, input::bytes(paths[1])?];
    let verdict = quayladle::judge(&files[0], &files[1]);
    let [board, library] = paths.map(shown);
    match verdict.reply.done() {
        _ if is_plain => writeln!(out, "{}", plain_verdict(verdict))?,
        Ok(count) => {
            writeln!(
                out,
                "{board}: {}, each with its entry in {library}",
                counted(count, "placement")
            )?;
        }
        Err(refusal) if refusal.reason == Reason::NoEntry => {
            let (line, names) = placement(&files[0], refusal.count);
            writeln!(out, "{}{names}", refused(&board, Refusal { line, ..refusal }))?;
        }
        Err(refusal) => {
            writeln!(out, "{}", refused(refused_name(&board, &library, verdict), refusal))?;
        }
    }
    Ok(if verdict.reply.number == 0 { Ending::Accepted } else { Ending::Refused })
}

/// The name of the file that a verdict refuses.
fn refused_name<'a>(first: &'a str, second: &'a str, verdict: Verdict) -> &'a str {
    if verdict.which == 2 {
        second
    } else {
        first
    }
}

/// The line of a placement by its number from 1, and its package, part and reference as they are meant:
/// ` (cc1210 pn-cc1210 C3)`.
fn placement(board: &[u8], number: u64) -> (u64, String) {
    let rows = quayladle::rows(board).unwrap_or_default();
    let mut placements = rows.iter().filter(|row| row[0] == PLACEMENT);
    let Some(row) = placements.nth((number as usize).saturating_sub(1)) else {
        return (0, String::new());
    };
    let names = [1, 3, 5].map(|column| quayladle::text(row, column, board).unwrap_or_default());
    (row[LINE] as u64, format!(" ({})", names.map(printable).join(" ")))
}
