//! What two lists of numbers have in common, in order.

use std::collections::HashSet;
use std::convert::Infallible;
use std::time::{Duration, Instant};

use ahash::RandomState;
use similar::algorithms::{myers, DiffHook};

/// The places in both lists of a longest list that each has in its order, or of a shorter one once the time is over.
///
/// What is used of the time is taken away from it.
pub fn common(first: &[u64], second: &[u64], time: &mut Duration) -> Vec<(usize, usize)> {
    let is_same = |(ours, theirs): &(&u64, &u64)| ours == theirs;
    let before = first.iter().zip(second).take_while(is_same).count();
    let (ours, theirs) = (&first[before..], &second[before..]);
    let behind = ours.iter().rev().zip(theirs.iter().rev()).take_while(is_same).count();
    let (ours, theirs) = (&ours[..ours.len() - behind], &theirs[..theirs.len() - behind]);

    let mut pairs: Vec<(usize, usize)> = (0..before).zip(0..before).collect();
    if !ours.is_empty() && !theirs.is_empty() {
        let size = ours.len() + theirs.len();
        let (ours, theirs) = at_once(size, || shared(ours, theirs), || shared(theirs, ours));
        let begun = Instant::now();
        let middle = longest(&ours, &theirs, begun + *time);
        *time = time.saturating_sub(begun.elapsed());
        pairs.extend(middle.into_iter().map(|(i, j)| (before + i, before + j)));
    }
    pairs.extend((first.len() - behind..first.len()).zip(second.len() - behind..));
    pairs
}

/// Members of a list, and the place of each in it.
type Members = (Vec<u64>, Vec<usize>);

/// The members of a list that another has too: no other can be in common, and many would take long.
fn shared(list: &[u64], other: &[u64]) -> Members {
    let other: HashSet<u64, RandomState> = other.iter().copied().collect();
    list.iter().copied().zip(0..).filter(|(number, _)| other.contains(number)).unzip()
}

/// Two answers, found at the same time where there is much to do.
pub fn at_once<T: Send>(
    size: usize,
    first: impl FnOnce() -> T + Send,
    second: impl FnOnce() -> T + Send,
) -> (T, T) {
    const MUCH: usize = 10_000;
    match size < MUCH {
        true => (first(), second()),
        false => rayon::join(first, second),
    }
}

/// The places of a longest list that both have in its order.
fn longest(
    (first, places): &Members,
    (second, others): &Members,
    until: Instant,
) -> Vec<(usize, usize)> {
    let mut runs = Runs::default();
    myers::diff_deadline(&mut runs, first, 0..first.len(), second, 0..second.len(), Some(until))
        .unwrap_or_else(|never| match never {});
    let pairs = runs.0.into_iter().flat_map(|(i, j, length)| (i..i + length).zip(j..));
    pairs.map(|(i, j)| (places[i], others[j])).collect()
}

/// Runs that two lists have in common: where they begin in each, and their length.
#[derive(Default)]
struct Runs(Vec<(usize, usize, usize)>);

impl DiffHook for Runs {
    type Error = Infallible;

    fn equal(&mut self, first: usize, second: usize, length: usize) -> Result<(), Infallible> {
        self.0.push((first, second, length));
        Ok(())
    }
}

#[cfg(test)]
mod tests {
    use generate::Random;

    use super::*;

    /// The length of a longest common list, by its definition.
    fn length(first: &[u64], second: &[u64]) -> usize {
        match (first, second) {
            ([a, ours @ ..], [b, theirs @ ..]) if a == b => 1 + length(ours, theirs),
            ([_, ours @ ..], [_, theirs @ ..]) => length(ours, second).max(length(first, theirs)),
            _ => 0,
        }
    }

    fn list(random: &mut Random, longest: usize) -> Vec<u64> {
        (0..random.below(longest + 1)).map(|_| random.below(5) as u64).collect()
    }

    /// Whether pairs are places of equal numbers that rise in both lists.
    fn are_common(pairs: &[(usize, usize)], first: &[u64], second: &[u64]) -> bool {
        pairs.iter().all(|&(i, j)| first[i] == second[j])
            && pairs.windows(2).all(|two| two[0].0 < two[1].0 && two[0].1 < two[1].1)
    }

    #[test]
    fn as_long_as_can_be() {
        let mut random = Random::new(1);
        let mut time = Duration::from_secs(600);
        for _ in 0..2_000 {
            let (first, second) = (list(&mut random, 9), list(&mut random, 9));
            let pairs = common(&first, &second, &mut time);
            assert!(are_common(&pairs, &first, &second), "{first:?} {second:?} {pairs:?}");
            assert_eq!(pairs.len(), length(&first, &second), "{first:?} {second:?}");
        }
    }

    #[test]
    fn without_time_both_ends() {
        let mut random = Random::new(2);
        for _ in 0..200 {
            let (first, second) = (list(&mut random, 200), list(&mut random, 200));
            let ends = |middle: &[u64]| [&[7, 8], middle, &[9]].concat();
            let (first, second) = (ends(&first), ends(&second));
            let mut time = Duration::ZERO;
            let pairs = common(&first, &second, &mut time);
            assert!(are_common(&pairs, &first, &second), "{first:?} {second:?} {pairs:?}");
            assert!(pairs.starts_with(&[(0, 0), (1, 1)]), "{pairs:?}");
            assert!(pairs.ends_with(&[(first.len() - 1, second.len() - 1)]), "{pairs:?}");
        }
    }
}
