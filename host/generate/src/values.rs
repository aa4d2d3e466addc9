//! Values that fields may hold: counts, angles, texts and dates, common ones and those at limits.

use crate::random::Random;

/// Hundred-thousandths in one, as numbers are counted.
pub const ONE: i64 = 100_000;
const LARGEST: i64 = 99_999_999_999;

/// Texts that a reader could take for something else.
const ODD_TEXTS: [&[u8]; 24] = [
    b"PROP",
    b"prop",
    b"BOARD",
    b"board",
    b"boards",
    b"PANEL",
    b"panel",
    b"NOREFDES",
    b"norefdes",
    b"norefde\xC5\xBF",
    b"MM",
    b"TOP",
    b"#1",
    b".x",
    b".END_NOTES",
    b"1.0",
    b"-0",
    b" ",
    b"a b",
    b" #",
    b". ",
    b"\xE9t\xE9",
    b"\xFF\x80",
    b"'\\",
];

/// The count of a number within any limits, or only at least 0.
pub fn count(random: &mut Random, negative: bool) -> i64 {
    let magnitude = match random.below(10) {
        0 => 0,
        1 => 1,
        2 => LARGEST,
        3 => random.below(LARGEST as usize + 1) as i64,
        4 | 5 => random.below(1_000_000) as i64,
        _ => random.below(40) as i64 * ONE / 4,
    };
    if negative && random.one_in(3) {
        -magnitude
    } else {
        magnitude
    }
}

/// The count of an included angle other than 360.
pub fn angle(random: &mut Random) -> i64 {
    let below = 360 * ONE - 1;
    match random.below(8) {
        0 => below,
        1 => -below,
        2 => random.below(2 * below as usize) as i64 - below,
        3 => 90 * ONE,
        _ => 0,
    }
}

/// A text without quotes.
pub fn text(random: &mut Random) -> Vec<u8> {
    match random.below(12) {
        0 => Vec::new(),
        1 | 2 => random.pick(&ODD_TEXTS).to_vec(),
        3 => (0..random.below(12)).map(|_| permitted(random)).collect(),
        _ => name(random),
    }
}

/// A text, or once in four times one of some names.
pub fn text_or_name(random: &mut Random, names: &[&str]) -> Vec<u8> {
    if random.one_in(4) {
        random.pick(names).into()
    } else {
        text(random)
    }
}

/// A text of letters, digits and marks.
pub fn name(random: &mut Random) -> Vec<u8> {
    let letters = b"ABCDERSTUVabcdexyz0123456789_-";
    (0..1 + random.below(7)).map(|_| random.pick(letters)).collect()
}

/// A byte that a text may hold.
fn permitted(random: &mut Random) -> u8 {
    match 32 + random.below(224) as u8 {
        b'"' | 127 => b' ',
        byte => byte,
    }
}

/// A date, not always one of the calendar.
pub fn date(random: &mut Random) -> String {
    let year = random.below(10_000);
    let (month, day) = (1 + random.below(12), 1 + random.below(31));
    let (hour, minute, second) = (random.below(24), random.below(60), random.below(60));
    format!("{year:04}/{month:02}/{day:02}.{hour:02}:{minute:02}:{second:02}")
}
