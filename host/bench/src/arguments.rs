//! What the command line may say.

use std::fmt::Display;
use std::time::Duration;

use crate::asking::{Operation, Side};
use crate::counts::One;

/// What `--help` prints.
pub const HELP: &str = "\
Times the proved library against the second reader on boards, panels and libraries of 1, 4 and 16 MiB, and says which bounds are met.
Checking their Windows copies, which have a 13 before each 10, is held against checking the files.

Usage: tools/bench [OPTIONS]

Options:
      --rounds N       Go through the sizes N times, each side twice, and take the best [default: 5]
      --limit SECONDS  Give up on a single run that takes longer [default: 20]
      --quick          The sizes of 1 MiB only, and no special cases
      --count          Count instructions under valgrind and time nothing; on x86-64 itself, some minutes
  -h, --help           Print this

The tables go to standard output, progress to standard error.
Exit code: 0, met or not; 1 if the two answer differently, a file is refused or valgrind cannot count; 2 if the command line is wrong.
";

/// What was asked for.
#[derive(Debug, Clone, Copy, PartialEq, Eq)]
pub struct Arguments {
    /// How often the sizes are gone through.
    pub rounds: u32,
    /// How long a single run may take.
    pub limit: Duration,
    /// Whether only the smallest size is timed.
    pub quick: bool,
}

/// What a command line says.
#[derive(Debug, PartialEq, Eq)]
pub enum Command {
    /// Print the help.
    Help,
    /// Run.
    Run(Arguments),
    /// Count instructions, at the smallest size only or at all.
    Count { quick: bool },
    /// Ask once, in a process that valgrind runs.
    One(One),
}

/// Reads a command line, the program's name left off; what is wrong with it is said in words.
pub fn parse(mut words: impl Iterator<Item = String>) -> Result<Command, String> {
    let mut arguments = Arguments { rounds: 5, limit: Duration::from_secs(20), quick: false };
    let mut count = false;
    while let Some(word) = words.next() {
        match word.as_str() {
            "-h" | "--help" => return Ok(Command::Help),
            "--quick" => arguments.quick = true,
            "--count" => count = true,
            "--one" => return one(&mut words).map(Command::One),
            "--rounds" => arguments.rounds = whole(&word, words.next())?,
            "--limit" => arguments.limit = Duration::from_secs(whole(&word, words.next())?.into()),
            _ => return Err(format!("{word}: no such option")),
        }
    }
    if count {
        return Ok(Command::Count { quick: arguments.quick });
    }
    Ok(Command::Run(arguments))
}

/// The side, the operation and the folder behind `--one`.
fn one(words: &mut impl Iterator<Item = String>) -> Result<One, String> {
    let side = named(&Side::ALL, words.next())?;
    let operation = named(&Operation::ALL, words.next())?;
    let folder = words.next().ok_or("--one: a folder is missing")?;
    Ok(One { side, operation, folder })
}

/// The one of some things that has a name.
fn named<T: Copy + Display>(all: &[T], name: Option<String>) -> Result<T, String> {
    let name = name.ok_or("--one: a name is missing")?;
    let found = all.iter().find(|thing| thing.to_string() == name);
    found.copied().ok_or_else(|| format!("--one {name}: no such name"))
}

/// The whole number above 0 that an option wants.
fn whole(option: &str, value: Option<String>) -> Result<u32, String> {
    let value = value.ok_or_else(|| format!("{option}: a number is missing"))?;
    match value.parse() {
        Ok(number) if number > 0 => Ok(number),
        _ => Err(format!("{option} {value}: not a whole number above 0")),
    }
}

#[cfg(test)]
mod tests {
    use super::*;

    fn parsed(line: &str) -> Result<Command, String> {
        parse(line.split_whitespace().map(String::from))
    }

    #[test]
    fn options_are_read_in_any_order() {
        let wanted = Arguments { rounds: 2, limit: Duration::from_secs(7), quick: true };
        assert_eq!(parsed("--limit 7 --quick --rounds 2"), Ok(Command::Run(wanted)));
        assert_eq!(parsed("--quick --help --wrong"), Ok(Command::Help));
        assert_eq!(parsed("--count --quick"), Ok(Command::Count { quick: true }));
        let one = One { side: Side::Second, operation: Operation::Same, folder: "x".to_string() };
        assert_eq!(parsed("--one second same x"), Ok(Command::One(one)));
    }

    #[test]
    fn wrong_arguments_are_named() {
        for (line, fault) in [
            ("--fast", "--fast: no such option"),
            ("--rounds", "--rounds: a number is missing"),
            ("--rounds 0", "--rounds 0: not a whole number above 0"),
            ("--limit x", "--limit x: not a whole number above 0"),
            ("--one third same x", "--one third: no such name"),
            ("--one second", "--one: a name is missing"),
            ("--one second same", "--one: a folder is missing"),
        ] {
            assert_eq!(parsed(line), Err(fault.to_string()));
        }
    }
}
