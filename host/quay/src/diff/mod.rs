//! Where two files differ, record by record. Whether they do is the proved comparison's answer; what is said of their
//! records is this module's own work over their rows.

mod align;
mod common;
mod differences;
mod digests;
mod json;
mod kinds;
mod plain;
mod records;
mod spots;
mod text;
mod values;

use std::io::Write;
use std::path::Path;
use std::time::{Duration, Instant};

use quayladle::Verdict;

use crate::commands;
use crate::ending::{Ending, Failure};
use crate::input;
use crate::showing::shown;
use align::Steps;
use differences::{differences, Difference};
use records::Records;

/// How differences are printed.
#[derive(Debug, Clone, Copy, PartialEq, Eq)]
pub enum Form {
    /// In words.
    Text,
    /// In lines for programs.
    Plain,
    /// As one JSON document.
    Json,
}

/// Two files, what the proved comparison answered, and where their records differ.
struct Compared<'a> {
    verdict: Verdict,
    records: [Records<'a>; 2],
    steps: Steps,
    /// How many differences to print at most.
    limit: usize,
}

impl Compared<'_> {
    /// The files' names, as they can be printed.
    fn names(&self) -> [&str; 2] {
        self.records.each_ref().map(|records| records.name)
    }

    /// The differences to print, in the order of the files.
    fn shown(&self) -> impl Iterator<Item = Difference<'_>> {
        differences(&self.records, &self.steps.list).take(self.limit)
    }
}

/// Says where two files differ, with no more differences than the limit, or with all if it is 0.
pub fn command(
    paths: [&Path; 2],
    limit: usize,
    form: Form,
    out: &mut impl Write,
) -> Result<Ending, Failure> {
    let files = [input::bytes(paths[0])?, input::bytes(paths[1])?];
    let names = paths.map(shown);
    let begun = Instant::now();
    // Most files that this command is asked about differ, so they are read while they are compared.
    let (verdict, records) =
        rayon::join(|| quayladle::same(&files[0], &files[1]), || records(&names, &files));
    if verdict.reply.done() != Ok(0) && form != Form::Json {
        return commands::say_same(paths, verdict, form == Form::Plain, out);
    }
    let steps = steps(&records, verdict, time(&files, begun.elapsed()));
    let limit = if limit == 0 { usize::MAX } else { limit };
    let compared = Compared { verdict, records, steps, limit };
    match form {
        Form::Text => text::print(&compared, out)?,
        Form::Plain => plain::print(&compared, out)?,
        Form::Json => json::print(&compared, out)?,
    }
    Ok(commands::compared(verdict))
}

/// The records of two files.
fn records<'a>(names: &'a [String; 2], files: &'a [Vec<u8>; 2]) -> [Records<'a>; 2] {
    let read = |which: usize| Records::read(&names[which], &files[which]);
    let (first, second) = rayon::join(|| read(0), || read(1));
    [first, second]
}

/// The steps from one file to the other; none where the proved comparison does not say that they differ.
fn steps(records: &[Records; 2], verdict: Verdict, time: Duration) -> Steps {
    match verdict.reply.done() {
        Ok(0) => align::steps(&records[0], &records[1], time),
        _ => Steps::default(),
    }
}

/// How long matching may take: half a second on small files, and on large ones little beside comparing and reading them.
fn time(files: &[Vec<u8>; 2], reading: Duration) -> Duration {
    let mebibytes = files.iter().map(Vec::len).sum::<usize>() >> 20;
    let least = Duration::from_millis(500) / (1 + mebibytes as u32);
    least.max(reading / 20)
}
