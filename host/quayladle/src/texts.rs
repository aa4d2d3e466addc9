//! The texts that rows point at, as they are meant.

use crate::Row;

/// The kind of a drilled hole's row.
const HOLE: i64 = 111;
/// The kind of a placement's first row: package, part and reference.
const PLACEMENT: i64 = 131;

/// The text whose start stands in a column of a row, columns counted from 0, as it is meant.
///
/// A row points at the file's own bytes, and for most texts these are what is meant. A few are names that mean their
/// capitals in any letter case: NOREFDES and BOARD as a placement's reference, and NOREFDES, BOARD and PANEL as a hole's
/// part. Canonical text has them in capitals, and comparing and judging take them so; a program that looks at the bytes
/// itself would miss them.
///
/// There is no text where the kind has none that starts in the column, or where it does not lie within the bytes.
///
/// ```
/// let board = b".HEADER\nBOARD_FILE 3 s 2024/05/06.07:08:09 1\nn MM\n.END_HEADER
/// .BOARD_OUTLINE MCAD\n1\n0 0 0 0\n0 1 0 360\n.END_BOARD_OUTLINE
/// .PLACEMENT\nscrew m3 norefdes\n0 0 0 0 TOP PLACED\n.END_PLACEMENT\n";
/// let rows = quayladle::rows(board)?;
/// let placement = rows.iter().find(|row| row[0] == 131).expect("a placement");
///
/// let (start, length) = (placement[5] as usize, placement[6] as usize);
/// assert_eq!(&board[start..start + length], b"norefdes");
/// assert_eq!(quayladle::text(placement, 5, board), Some(&b"NOREFDES"[..]));
///
/// assert_eq!(quayladle::text(placement, 1, board), Some(&b"screw"[..]));
/// assert_eq!(quayladle::text(placement, 2, board), None, "a length stands there");
/// # Ok::<(), quayladle::Refusal>(())
/// ```
pub fn text<'a>(row: &Row, column: usize, bytes: &'a [u8]) -> Option<&'a [u8]> {
    if !starts(row[0]).contains(&column) {
        return None;
    }
    let start = usize::try_from(row[column]).ok()?;
    let length = usize::try_from(row[column + 1]).ok()?;
    let own = bytes.get(start..start.checked_add(length)?)?;
    let mut names = names(row[0], column).iter().map(|name| name.as_bytes());
    Some(names.find(|name| name.eq_ignore_ascii_case(own)).unwrap_or(own))
}

/// The columns in which the texts of a kind start, a date's too.
fn starts(kind: i64) -> &'static [usize] {
    match kind {
        11 => &[3, 5],
        12 | 41 => &[1],
        101 => &[2],
        HOLE => &[5, 7],
        121 => &[5],
        PLACEMENT => &[1, 3, 5],
        141 | 143 | 151 => &[1, 3],
        _ => &[],
    }
}

/// The names that mean their capitals in a column of a kind: a hole's part, and a reference.
fn names(kind: i64, column: usize) -> &'static [&'static str] {
    match (kind, column) {
        (HOLE, 5) => &["NOREFDES", "BOARD", "PANEL"],
        (PLACEMENT, 5) => &["NOREFDES", "BOARD"],
        _ => &[],
    }
}

#[cfg(test)]
mod tests {
    use super::*;
    use crate::STRIDE;

    /// A row of a kind with a text of so many bytes from a place on, in a column.
    fn row(kind: i64, column: usize, start: i64, length: i64) -> Row {
        let mut row = [0; STRIDE];
        row[0] = kind;
        row[column] = start;
        row[column + 1] = length;
        row
    }

    #[test]
    fn names_mean_their_capitals_where_they_are_names() {
        for (kind, column, own, meant) in [
            (131, 5, "NoRefDes", "NOREFDES"),
            (131, 5, "board", "BOARD"),
            (131, 5, "panel", "panel"),
            (131, 5, "norefdess", "norefdess"),
            (131, 1, "norefdes", "norefdes"),
            (131, 3, "board", "board"),
            (111, 5, "norefdes", "NOREFDES"),
            (111, 5, "Board", "BOARD"),
            (111, 5, "panel", "PANEL"),
            (111, 7, "panel", "panel"),
            (121, 5, "board", "board"),
        ] {
            let row = row(kind, column, 0, own.len() as i64);
            assert_eq!(text(&row, column, own.as_bytes()), Some(meant.as_bytes()), "{kind} {own}");
        }
    }

    #[test]
    fn a_text_lies_within_the_bytes() {
        for (start, length, meant) in [
            (3, 0, Some(&b""[..])),
            (1, 2, Some(b"bc")),
            (1, 3, None),
            (4, 0, None),
            (-1, 1, None),
            (1, -1, None),
            (i64::MAX, i64::MAX, None),
        ] {
            assert_eq!(text(&row(121, 5, start, length), 5, b"abc"), meant, "{start} {length}");
        }
        assert_eq!(text(&row(121, 5, 0, 1), 1, b"abc"), None);
        assert_eq!(text(&row(121, 5, 0, 1), 10, b"abc"), None);
        assert_eq!(text(&row(0, 5, 0, 1), 5, b"abc"), None);
    }
}
