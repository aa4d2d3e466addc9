//! Which records of two files stand against each other.
//!
//! Records are matched by what they mean. Between two matches, what is left is matched by what names it, and then by kind.

use std::ops::Range;
use std::time::Duration;

use super::common::{at_once, common};
use super::digests::{Digester, Level};
use super::records::Records;

/// A place where two files are not alike, by the places of records from 0.
#[derive(Debug, Clone, Copy, PartialEq, Eq)]
pub enum Step {
    /// A record of each, of one kind, which stand against each other.
    Both(usize, usize),
    /// A record of the first file alone.
    First(usize),
    /// A record of the second file alone.
    Second(usize),
}

/// The way from one file to another.
#[derive(Default)]
pub struct Steps {
    /// The steps in their order; records that mean the same are none.
    pub list: Vec<Step>,
    /// How many differences they make: each field in which two records differ, and each record of one file alone.
    pub count: usize,
}

/// The steps from the first file to the second.
///
/// Matching is given some time. Once it is over, what is left is paired by kind, from both ends for as long as it goes on alike.
pub fn steps(first: &Records, second: &Records, time: Duration) -> Steps {
    let mut aligner = Aligner {
        files: [first, second],
        digester: Digester::default(),
        time,
        steps: Steps::default(),
    };
    aligner.align(Level::Meaning, [0..first.len(), 0..second.len()]);
    aligner.steps
}

/// A run of records in each file.
type Runs = [Range<usize>; 2];

struct Aligner<'a> {
    files: [&'a Records<'a>; 2],
    digester: Digester,
    time: Duration,
    steps: Steps,
}

impl Aligner<'_> {
    /// Adds the steps over two runs, by what is matched in them at a level.
    fn align(&mut self, level: Level, [mut first, mut second]: Runs) {
        for (i, j) in self.pairs(level, &first, &second) {
            self.between(level, [first.start..i, second.start..j]);
            self.both(i, j);
            (first.start, second.start) = (i + 1, j + 1);
        }
        self.between(level, [first, second]);
    }

    /// The places of the records of two runs that are matched at a level, in order.
    fn pairs(
        &mut self,
        level: Level,
        first: &Range<usize>,
        second: &Range<usize>,
    ) -> impl Iterator<Item = (usize, usize)> {
        let [ours, theirs] = self.files;
        let (begin, other) = (first.start, second.start);
        let (ours, theirs) = at_once(
            first.len() + second.len(),
            || self.digester.run(level, ours, first.clone()),
            || self.digester.run(level, theirs, second.clone()),
        );
        let pairs = common(&ours, &theirs, &mut self.time);
        pairs.into_iter().map(move |(i, j)| (begin + i, other + j))
    }

    /// Adds the step over two records that are matched: by a number, which is shorter than what it stands for, so that what
    /// they say has the last word at every level.
    fn both(&mut self, i: usize, j: usize) {
        let [ours, theirs] = [self.files[0].at(i), self.files[1].at(j)];
        if ours.kind() != theirs.kind() {
            self.alone([i..i + 1, j..j + 1]);
            return;
        }
        let changed = ours.values().zip(theirs.values()).filter(|(our, their)| our != their);
        let count = changed.count();
        if count > 0 {
            self.steps.list.push(Step::Both(i, j));
            self.steps.count += count;
        }
    }

    /// Adds the steps over two runs in which nothing is matched at a level.
    fn between(&mut self, level: Level, runs: Runs) {
        let next = match level {
            _ if runs.iter().any(|run| run.is_empty()) => None,
            Level::Meaning if !self.time.is_zero() => Some(Level::Name),
            Level::Meaning | Level::Name => Some(Level::Kind),
            Level::Kind => None,
        };
        match next {
            Some(next) => self.align(next, runs),
            None => self.alone(runs),
        }
    }

    /// Adds the steps over records that have no match.
    fn alone(&mut self, [first, second]: Runs) {
        self.steps.count += first.len() + second.len();
        self.steps.list.extend(first.map(Step::First));
        self.steps.list.extend(second.map(Step::Second));
    }
}

#[cfg(test)]
mod tests {
    use generate::Random;

    use super::super::differences::differences;
    use super::*;

    const LONG: Duration = Duration::from_secs(600);

    /// A board with some placements: reference, x, and which of two packages.
    fn board(placements: &[(&str, i64, &str)]) -> Vec<u8> {
        let placed = placements
            .iter()
            .map(|(reference, x, package)| {
                format!("{package} p {reference}\n{x} 0 0 0 TOP PLACED\n")
            })
            .collect::<String>();
        format!(
            ".HEADER\nBOARD_FILE 3 s 2024/05/06.07:08:09 1\nn MM\n.END_HEADER\n.BOARD_OUTLINE MCAD\n1\n0 0 0 0\n\
            0 1 0 360\n.END_BOARD_OUTLINE\n.PLACEMENT\n{placed}.END_PLACEMENT\n"
        )
        .into_bytes()
    }

    fn steps_of(first: &[u8], second: &[u8], time: Duration) -> Vec<Step> {
        let records = [Records::read("", first), Records::read("", second)];
        let Steps { list, count } = steps(&records[0], &records[1], time);
        assert!(lead(&records, &list), "{list:?}");
        assert_eq!(count, differences(&records, &list).count());
        list
    }

    /// Whether steps lead from one file to the other: the records between them mean the same, pair by pair.
    fn lead([first, second]: &[Records; 2], steps: &[Step]) -> bool {
        let alike = |i, j| {
            let [ours, theirs] = [first.at(i), second.at(j)];
            ours.kind() == theirs.kind() && ours.values().eq(theirs.values())
        };
        let (mut i, mut j) = (0, 0);
        for step in steps {
            let (to, on) = match *step {
                Step::Both(to, on) => (to, on),
                Step::First(to) => (to, j + to - i),
                Step::Second(on) => (i + on - j, on),
            };
            if to - i != on - j || !(i..to).zip(j..on).all(|(i, j)| alike(i, j)) {
                return false;
            }
            i = to + usize::from(!matches!(step, Step::Second(_)));
            j = on + usize::from(!matches!(step, Step::First(_)));
        }
        first.len() - i == second.len() - j && (i..first.len()).zip(j..).all(|(i, j)| alike(i, j))
    }

    #[test]
    fn a_moved_part_is_one_step() {
        let before = board(&[("R1", 1, "a"), ("R2", 2, "a"), ("R3", 3, "a")]);
        let moved = board(&[("R1", 1, "a"), ("R2", 9, "a"), ("R3", 3, "a")]);
        assert_eq!(steps_of(&before, &moved, LONG), [Step::Both(13, 13)]);
        assert_eq!(steps_of(&before, &before, LONG), []);
    }

    #[test]
    fn parts_keep_their_names_beside_new_ones() {
        let before = board(&[("R1", 1, "a"), ("R2", 2, "a"), ("R3", 3, "a")]);
        let other = board(&[("R0", 0, "b"), ("R1", 1, "b"), ("R2", 2, "b"), ("R3", 4, "b")]);
        let expected = [
            Step::Second(10),
            Step::Second(11),
            Step::Both(10, 12),
            Step::Both(12, 14),
            Step::Both(14, 16),
            Step::Both(15, 17),
        ];
        assert_eq!(steps_of(&before, &other, LONG), expected);
    }

    #[test]
    fn parts_of_one_name_come_and_go_whole() {
        let screw = |x| ("NOREFDES", x, "screw");
        let before = board(&[screw(1), screw(3)]);
        let after = board(&[screw(1), screw(2), screw(3)]);
        assert_eq!(steps_of(&before, &after, LONG), [Step::Second(12), Step::Second(13)]);
        assert_eq!(steps_of(&after, &before, LONG), [Step::First(12), Step::First(13)]);
    }

    #[test]
    fn steps_lead_from_any_file_to_any_other() {
        let mut random = Random::new(3);
        for seed in (0..600).step_by(2) {
            let file = generate::file(seed);
            let damaged = generate::damaged(&mut random, &file);
            for other in [damaged, generate::file(seed + 2)] {
                let Ok(same) = quayladle::same(&file, &other).reply.done() else {
                    continue;
                };
                for time in [LONG, Duration::ZERO] {
                    assert_eq!(steps_of(&file, &other, time).is_empty(), same == 1, "seed {seed}");
                }
            }
        }
    }
}
