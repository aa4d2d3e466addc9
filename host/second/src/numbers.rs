//! Numbers, integers and dates: from their spelling, and numbers and integers back to it.

use crate::reply::Fault;

/// Hundred-thousandths in one, as numbers are counted.
pub const ONE: i64 = 100_000;
/// The largest magnitude of a number, as a count.
pub const LARGEST_NUMBER: i64 = 99_999_999_999;
/// The largest magnitude of an integer.
pub const LARGEST_INTEGER: i64 = 999_999_999;
/// The angle that makes a circle, as a count.
pub const FULL_TURN: i64 = 360 * ONE;
/// The version of the format, as a count.
pub const VERSION: i64 = 3 * ONE;

/// The decimals that a count holds.
const DECIMALS: usize = 5;

/// The count of a number, judged first by its form and magnitude, then by its decimals.
pub fn number(bytes: &[u8]) -> Result<i64, Fault> {
    let (negative, digits) = signed(bytes);
    let (whole, decimals) = match digits.iter().position(|&byte| byte == b'.') {
        Some(point) => (&digits[..point], &digits[point + 1..]),
        None => (digits, &b"0"[..]),
    };
    let (kept, rest) = decimals.split_at(decimals.len().min(DECIMALS));
    let (Some(whole), Some(kept), true) = (value(whole), value_of_decimals(kept), are_digits(rest))
    else {
        return Err(Fault::Number);
    };
    let count = within(whole * ONE + kept, LARGEST_NUMBER)?;
    if rest.iter().any(|&byte| byte != b'0') {
        return Err(Fault::Decimals);
    }
    Ok(if negative { -count } else { count })
}

/// The value of an integer.
pub fn integer(bytes: &[u8]) -> Result<i64, Fault> {
    let (negative, digits) = signed(bytes);
    let value = within(value(digits).ok_or(Fault::Number)?, LARGEST_INTEGER)?;
    Ok(if negative { -value } else { value })
}

/// Whether bytes are a date: yyyy/mm/dd.hh:mm:ss, each part in its range whatever the others are.
pub fn is_date(bytes: &[u8]) -> bool {
    let form = b"dddd/dd/dd.dd:dd:dd";
    let formed = bytes.len() == form.len()
        && bytes.iter().zip(form).all(|(byte, form)| match form {
            b'd' => byte.is_ascii_digit(),
            mark => byte == mark,
        });
    let part = |at: usize| (bytes[at] - b'0') * 10 + (bytes[at + 1] - b'0');
    formed
        && (1..=12).contains(&part(5))
        && (1..=31).contains(&part(8))
        && part(11) <= 23
        && part(14) <= 59
        && part(17) <= 59
}

/// Adds a number's canonical spelling: five decimals, a minus only below zero.
pub fn push_number(count: i64, out: &mut Vec<u8>) {
    push_digits(count, DECIMALS, out);
}

/// Adds an integer's canonical spelling.
pub fn push_integer(value: i64, out: &mut Vec<u8>) {
    push_digits(value, 0, out);
}

/// Adds a value in decimal digits, the last `decimals` of them behind a point.
fn push_digits(value: i64, decimals: usize, out: &mut Vec<u8>) {
    if value < 0 {
        out.push(b'-');
    }
    let first = out.len();
    let mut rest = value.unsigned_abs();
    while rest > 0 || out.len() - first <= decimals {
        out.push(b'0' + (rest % 10) as u8);
        rest /= 10;
    }
    out[first..].reverse();
    if decimals > 0 {
        out.insert(out.len() - decimals, b'.');
    }
}

/// Takes a sign off: whether it is a minus, and what follows.
fn signed(bytes: &[u8]) -> (bool, &[u8]) {
    match bytes {
        [b'+', rest @ ..] => (false, rest),
        [b'-', rest @ ..] => (true, rest),
        rest => (false, rest),
    }
}

fn are_digits(bytes: &[u8]) -> bool {
    bytes.iter().all(u8::is_ascii_digit)
}

/// The value of one or more digits; one past every limit stands for all larger ones.
fn value(digits: &[u8]) -> Option<i64> {
    if digits.is_empty() || !are_digits(digits) {
        return None;
    }
    let add = |sum: i64, digit: &u8| (sum * 10 + i64::from(digit - b'0')).min(LARGEST_NUMBER + 1);
    Some(digits.iter().fold(0, add))
}

/// The count that up to five decimals stand for.
fn value_of_decimals(digits: &[u8]) -> Option<i64> {
    let missing = DECIMALS.saturating_sub(digits.len());
    Some((0..missing).fold(value(digits)?, |sum, _| sum * 10))
}

fn within(magnitude: i64, largest: i64) -> Result<i64, Fault> {
    (magnitude <= largest).then_some(magnitude).ok_or(Fault::Number)
}
