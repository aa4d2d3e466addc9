//! Lines of rows: numbers that rise by steps of any size, and numbers that somewhere do not.

use crate::damage::changed;
use crate::random::Random;

/// Lines for so many rows, at least one. Half of the lists rise from 1 or more; in the others one
/// line is damaged, and most of them do not.
pub fn lines(random: &mut Random, count: usize) -> Vec<i64> {
    let mut last = 0;
    let rising = (0..count).map(|_| {
        last += random.pick(&[1, 1, 1, 2, 3, 100, 1 << 31, 1 << 40]);
        last
    });
    let mut lines: Vec<i64> = rising.collect();
    if random.one_in(4) {
        lines.iter_mut().for_each(|line| *line += i64::MAX - last);
    }
    if random.one_in(2) {
        damage(random, &mut lines);
    }
    lines
}

/// Changes one line to one before it, to a neighbour, or to one at a limit, or exchanges two.
fn damage(random: &mut Random, lines: &mut [i64]) {
    let (at, other) = (random.below(lines.len()), random.below(lines.len()));
    match random.below(6) {
        0 => lines[at] = lines[at.saturating_sub(1)],
        1 => lines[at] = lines[other],
        2 => lines.swap(at, other),
        3 => lines[at] = -lines[at],
        4 => lines[at] = random.pick(&[0, -1, i64::MIN, i64::MAX]),
        _ => lines[at] = changed(random, lines[at] - 1),
    }
}

#[cfg(test)]
mod tests {
    use super::*;

    #[test]
    fn lines_rise_and_do_not() {
        let (mut rising, mut first_bad, mut largest) = (0, 0, 0);
        for seed in 0..10_000 {
            let lines = lines(&mut Random::new(seed), 1 + seed as usize % 50);
            let rise = lines[0] >= 1 && lines.windows(2).all(|pair| pair[0] < pair[1]);
            rising += u64::from(rise);
            first_bad += u64::from(lines[0] < 1);
            largest += u64::from(rise && lines.last() == Some(&i64::MAX));
        }
        println!("{rising} rise, {first_bad} from below 1, {largest} to the largest number");
        assert!((5_000..8_000).contains(&rising) && first_bad > 100 && largest > 100);
    }
}
