//! Differences between the records of two files.

use super::align::Step;
use super::kinds::Field;
use super::records::Records;
use super::spots::Spot;
use super::values::Value;

/// A difference between two files.
pub enum Difference<'a> {
    /// A field of a record that stands in both.
    Changed { at: [Spot<'a>; 2], field: &'static Field, values: [Value<'a>; 2] },
    /// A record of the first file alone.
    First(Spot<'a>),
    /// A record of the second file alone.
    Second(Spot<'a>),
}

impl<'a> Difference<'a> {
    /// One word for it: `changed`, or the file that alone has the record.
    pub fn word(&self) -> &'static str {
        match self {
            Difference::Changed { .. } => "changed",
            Difference::First(_) => "first",
            Difference::Second(_) => "second",
        }
    }

    /// The record, that of the first file if it stands in both.
    pub fn at(&self) -> Spot<'a> {
        match self {
            Difference::Changed { at: [at, _], .. } => *at,
            Difference::First(at) | Difference::Second(at) => *at,
        }
    }

    /// Its line in each file that has it.
    pub fn lines(&self) -> [Option<i64>; 2] {
        let line = |at: &Spot| Some(at.record().line());
        match self {
            Difference::Changed { at, .. } => at.each_ref().map(line),
            Difference::First(at) => [line(at), None],
            Difference::Second(at) => [None, line(at)],
        }
    }
}

/// The differences that steps from one file to another make.
pub fn differences<'a>(
    [first, second]: &'a [Records<'a>; 2],
    steps: &'a [Step],
) -> impl Iterator<Item = Difference<'a>> {
    steps.iter().flat_map(|&step| {
        let (both, alone) = match step {
            Step::Both(i, j) => (Some([Spot::new(first, i), Spot::new(second, j)]), None),
            Step::First(i) => (None, Some(Difference::First(Spot::new(first, i)))),
            Step::Second(j) => (None, Some(Difference::Second(Spot::new(second, j)))),
        };
        both.into_iter().flat_map(changes).chain(alone)
    })
}

/// The fields in which two records of one kind differ.
fn changes<'a>(at: [Spot<'a>; 2]) -> impl Iterator<Item = Difference<'a>> {
    let pairs = at[0].record().fields().zip(at[1].record().values());
    let changed = pairs.filter(|((_, ours), theirs)| ours != theirs);
    changed.map(move |((field, ours), theirs)| {
        let values = [ours, theirs];
        Difference::Changed { at, field, values }
    })
}
