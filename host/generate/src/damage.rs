//! Damage: a file changed in a byte, a field, a line or a section, so that every refusal occurs.

use std::ops::Range;

use crate::random::Random;

/// Numbers and dates at the edge of some rule, or past it.
const NUMBERS: &str =
    "0 -0 1 2 -1 400 360 -360 360.00001 -359.99999 -0.00001 999999.99999 1000000 \
    -1000000.000001 0.000001 1.0000000 5. .5 1e3 +-1 - + 999999999 1000000000 3 3.0 2.0 3.000001 \
    00000000000000000000000000000001 2024/02/31.23:59:59 2024/13/01.00:00:00 10/22/96.16:20:19";

/// Words that belong somewhere, but seldom to where they are put.
const WORDS: &str =
    "x TOP top BOTTOM BOTH INNER Inner ALL MM THOU TNM mm MCAD mcad ECAD UNOWNED PLACED Placed FIXED \
    PTH NPTH npth PROP prop pRoP BOARD board Board PANEL panel NOREFDES norefdes NoRefDes BOARD_FILE \
    board_file PANEL_FILE LIBRARY_FILE LIBRARY_file .HEADER .NOTES \
    .END_NOTES .PLACEMENT .END_PLACEMENT .ELECTRICAL .END_ELECTRICAL .END_MECHANICAL .5x . # #x";

/// Quoted fields, good and broken.
const QUOTED: &str =
    r#""TOP" "top" "mcad" "mm" "0" "" "BOARD" "board" "PROP" "prop" ".HEADER" " a"b "a"b ""a"""#;

/// Names, and texts that look like them, for the place of a reference.
const REFERENCES: &str =
    r#"BOARD board Board "board" boards PANEL panel NOREFDES norefdes "NoRefDes" norefde"#;

/// Bytes at the edge of a byte class.
const EDGE_BYTES: &[u8] = b"\x00\x09\x0A\x0B\x0D\x1F !\"#.~\x7F\x80\xA0\xFF019-+Aa";

/// The file with one damage, sometimes two or three.
pub fn damaged(random: &mut Random, file: &[u8]) -> Vec<u8> {
    let mut out = file.to_vec();
    for _ in 0..random.pick(&[1, 1, 1, 2, 3]) {
        damage(random, &mut out);
    }
    out
}

fn damage(random: &mut Random, file: &mut Vec<u8>) {
    let at = random.below(file.len());
    match random.below(19) {
        0 => drop(file.splice(at..end(at, 1, file), [byte(random)])),
        1 => file.insert(at, byte(random)),
        2 => drop(file.drain(at..end(at, 1, file))),
        3 => file.truncate(at),
        4 => file.insert(at, random.pick(b"\x80\xA0\xE9\xFF")),
        5 => put_return(random, file, at),
        6 => drop_line(file, at),
        7 => double_lines(file, line_at(file, at)),
        8 => swap_lines(random, file, at),
        9 => copy_line(random, file, at),
        10 => double_lines(file, section_at(file, at)),
        11 | 12 => extend_field(random, file, at),
        13 => turn_letter(file, at),
        14 => quote_word(file, at),
        15 => name_reference(random, file, at),
        _ => replace_field(random, file, at),
    }
}

fn byte(random: &mut Random) -> u8 {
    if random.one_in(2) {
        random.pick(EDGE_BYTES)
    } else {
        random.below(256) as u8
    }
}

/// The end of so many bytes from a place, or of the file.
fn end(at: usize, count: usize, file: &[u8]) -> usize {
    file.len().min(at + count)
}

/// The line around a place, without its byte 10.
fn line_at(file: &[u8], at: usize) -> Range<usize> {
    let start = file[..at].iter().rposition(|&byte| byte == b'\n').map_or(0, |place| place + 1);
    let length = file[start..].iter().position(|&byte| byte == b'\n');
    start..length.map_or(file.len(), |length| start + length)
}

/// Puts a byte 13 to the end of a line or of the file, into a line, into a comment, or behind a quote.
fn put_return(random: &mut Random, file: &mut Vec<u8>, at: usize) {
    let line = line_at(file, at);
    match random.below(6) {
        0 => file.insert(line.end, b'\r'),
        1 => drop(file.splice(line.end..line.end, *b"\r\r")),
        2 => file.push(b'\r'),
        3 => file.insert(at, b'\r'),
        4 => drop(file.splice(line.start..line.start, *b"#\r x\r\r\n")),
        _ => quote_last_field(file, line),
    }
}

/// Puts the last field of a line into quotes, and one byte 13 behind them.
fn quote_last_field(file: &mut Vec<u8>, line: Range<usize>) {
    let last = file[line.clone()].iter().rposition(|&byte| byte != b'\r');
    let end = last.map_or(line.start, |last| line.start + last + 1);
    let start = field_at(file, end).start;
    let quoted = [b"\"", &file[start..end], b"\"\r"].concat();
    file.splice(start..line.end, quoted);
}

/// The lines around a place from one that begins with a period to the next such, if both stand.
fn section_at(file: &[u8], at: usize) -> Range<usize> {
    let mut start = line_at(file, at);
    while start.start > 0 && file.get(start.start) != Some(&b'.') {
        start = line_at(file, start.start - 1);
    }
    let mut last = line_at(file, end(start.end, 1, file));
    while last.end < file.len() && file.get(last.start) != Some(&b'.') {
        last = line_at(file, last.end + 1);
    }
    start.start..last.end
}

fn drop_line(file: &mut Vec<u8>, at: usize) {
    let line = line_at(file, at);
    let after = end(line.end, 1, file);
    file.drain(line.start..after);
}

/// Puts a copy of some lines directly before them.
fn double_lines(file: &mut Vec<u8>, lines: Range<usize>) {
    let copy = [&file[lines.clone()], b"\n"].concat();
    file.splice(lines.start..lines.start, copy);
}

/// Exchanges a line with the next one or with any other.
fn swap_lines(random: &mut Random, file: &mut Vec<u8>, at: usize) {
    let one = line_at(file, at);
    let place = if random.one_in(2) { one.end + 1 } else { random.below(file.len()) };
    let other = line_at(file, place.min(file.len()));
    let (first, second) = if one.start < other.start { (one, other) } else { (other, one) };
    if first.end < second.start {
        let (early, late) = (file[first.clone()].to_vec(), file[second.clone()].to_vec());
        file.splice(second, early);
        file.splice(first, late);
    }
}

/// Puts a copy of any line in the place of another.
fn copy_line(random: &mut Random, file: &mut Vec<u8>, at: usize) {
    let from = line_at(file, random.below(file.len()));
    let copy = file[from].to_vec();
    file.splice(line_at(file, at), copy);
}

/// Puts a token in the place of the field around a byte.
fn replace_field(random: &mut Random, file: &mut Vec<u8>, at: usize) {
    let list = random.pick(&[NUMBERS, NUMBERS, WORDS, QUOTED]);
    let tokens: Vec<&str> = list.split(' ').collect();
    file.splice(field_at(file, at), random.pick(&tokens).bytes());
}

/// Makes the next letter from a byte on small if it is a capital, and a capital if it is small.
fn turn_letter(file: &mut [u8], at: usize) {
    if let Some(letter) = file[at..].iter_mut().find(|byte| byte.is_ascii_alphabetic()) {
        *letter ^= b'a' ^ b'A';
    }
}

/// Puts the next field from a byte on that begins with a letter into quotes, in small letters.
fn quote_word(file: &mut Vec<u8>, at: usize) {
    let Some(letter) = file[at..].iter().position(u8::is_ascii_alphabetic) else {
        return;
    };
    let field = field_at(file, at + letter);
    let quoted = [b"\"", &file[field.clone()], b"\""].concat().to_ascii_lowercase();
    file.splice(field, quoted);
}

/// Puts a name, or what looks like one, to the end of the next line of three fields from a byte on.
fn name_reference(random: &mut Random, file: &mut Vec<u8>, at: usize) {
    let mut line = line_at(file, at);
    while !has_three_fields(&file[line.clone()]) {
        if line.end >= file.len() {
            return;
        }
        line = line_at(file, line.end + 1);
    }
    let names: Vec<&str> = REFERENCES.split(' ').collect();
    let last = file[line.clone()].iter().rposition(|byte| !b" \r".contains(byte));
    let field = field_at(file, last.map_or(line.start, |last| line.start + last));
    file.splice(field, random.pick(&names).bytes());
}

/// Whether spaces part a line into three, quotes not looked at.
fn has_three_fields(line: &[u8]) -> bool {
    line.split(|&byte| byte == b' ').filter(|part| !part.is_empty()).count() == 3
}

/// Puts a sign, a digit or a sixth decimal to the field around a byte.
fn extend_field(random: &mut Random, file: &mut Vec<u8>, at: usize) {
    let field = field_at(file, at);
    let (place, more) = match random.below(4) {
        0 | 1 => (field.start, "-"),
        2 => (field.end, "9"),
        _ if file[field.clone()].contains(&b'.') => (field.end, "000001"),
        _ => (field.end, ".000001"),
    };
    file.splice(place..place, more.bytes());
}

/// The field around a byte, quotes not looked at; nothing between two spaces is a field too.
fn field_at(file: &[u8], at: usize) -> Range<usize> {
    let parts = |byte: &u8| matches!(byte, b' ' | b'\r' | b'\n');
    let start = file[..at].iter().rposition(parts).map_or(0, |place| place + 1);
    let length = file[start..].iter().position(parts);
    start..length.map_or(file.len(), |length| start + length)
}

/// A number near another one, or one at a limit.
pub fn changed(random: &mut Random, number: i64) -> i64 {
    match random.below(4) {
        0 => number + 1,
        1 => number - 1,
        2 => random.pick(&[0, 1, 10, 36_000_000, 99_999_999_999, 100_000_000_000, -1_000_000_000]),
        _ => random.pick(&[i64::MIN, i64::MAX, -1, 3, 300_000, 999_999_999]),
    }
}
