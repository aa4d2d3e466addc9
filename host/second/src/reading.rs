//! Reading and checking: one walk over the lines of a file, each line judged by the rules in order.

use crate::bytes::{Line, Lines, LARGEST_FILE};
use crate::fields::{Field, Split};
use crate::kinds::{Kind, Type, BOARD_NAME, PROP};
use crate::numbers::{integer, is_date, number, VERSION};
use crate::reply::{Fault, Reply};
use crate::rows::{Row, Used, LINE, STRIDE};
use crate::state::State;

/// Checks a file; the count is its rows.
pub fn check(file: &[u8]) -> Reply {
    walk(file, |_| ())
}

/// Reads a file's rows into the lent slice, which stays untouched unless the reply is 0.
pub fn read(file: &[u8], rows: &mut [i64]) -> Reply {
    let list = match self::rows(file) {
        Ok(list) => list,
        Err(reply) => return reply,
    };
    let count = list.len() as u64;
    if rows.len() / STRIDE < list.len() {
        return Reply::few_rows(count);
    }
    for (lent, row) in rows.chunks_exact_mut(STRIDE).zip(&list) {
        lent.copy_from_slice(row);
    }
    Reply::done(count)
}

/// The rows of an accepted file, or its refusal.
pub fn rows(file: &[u8]) -> Result<Vec<Row>, Reply> {
    let mut list = Vec::new();
    let reply = walk(file, |row| list.push(row));
    if reply.number == 0 {
        Ok(list)
    } else {
        Err(reply)
    }
}

/// Goes through a file up to its first faulty line, handing out each line's row.
fn walk(file: &[u8], mut each: impl FnMut(Row)) -> Reply {
    if file.len() > LARGEST_FILE {
        return Reply::OVERSIZE;
    }
    let mut lines = Lines::of(file);
    let mut state = State::new();
    let mut used = Used::default();
    let mut count = 0;
    for line in lines.by_ref() {
        match turn(line, &mut state) {
            Err(fault) => return Reply::fault(fault, line.number),
            Ok(None) => (),
            Ok(Some(row)) if !used.admits(&row, file) => {
                return Reply::fault(Fault::Twice, line.number);
            }
            Ok(Some(row)) => {
                count += 1;
                each(row);
            }
        }
    }
    if state.complete() {
        Reply::done(count)
    } else {
        Reply::too_early(lines.next_number())
    }
}

/// Judges one line by all rules but that on pairs, and moves the state; a free line has no row.
fn turn(line: Line, state: &mut State) -> Result<Option<Row>, Fault> {
    if line.is_free() {
        return if state.inside() { Err(Fault::Place) } else { Ok(None) };
    }
    let split = Split::of(line)?;
    let kind = kind_of(split.first(), state).ok_or(Fault::Place)?;
    let layout = kind.layout();
    let fields = split.exactly(usize::from(kind.lead().is_some()), layout.len())?;
    let mut row = [0; STRIDE];
    row[0] = kind.number();
    row[LINE] = line.number as i64;
    let mut column = 1;
    for (&wanted, field) in layout.iter().zip(fields) {
        fill(wanted, field, state, &mut row[column..])?;
        column += wanted.columns();
    }
    state.take(kind, &row)?;
    Ok(Some(row))
}

/// The kind of a line by its first field, if such a line may stand here.
fn kind_of(first: &Field, state: &State) -> Option<Kind> {
    match first.bare() {
        Some(keyword @ [b'.', ..]) => {
            Kind::of_keyword(keyword).filter(|&kind| state.may_stand(kind))
        }
        word => state.data_kind(word.is_some_and(|word| is_word(PROP, word))),
    }
}

/// Judges one field and fills its columns.
fn fill(wanted: Type, field: &Field, state: &State, columns: &mut [i64]) -> Result<(), Fault> {
    let bare = field.bare();
    columns[0] = match wanted {
        Type::Word(list) => word(list, bare).ok_or(Fault::Word)?,
        Type::Integer => integer(bare.ok_or(Fault::Number)?)?,
        Type::Version => match number(bare.ok_or(Fault::Number)?)? {
            VERSION => VERSION,
            _ => return Err(Fault::Word),
        },
        Type::Number(limit) => match number(bare.ok_or(Fault::Number)?)? {
            count if limit.allows(count) => count,
            _ => return Err(Fault::Limit),
        },
        Type::Date if !bare.is_some_and(is_date) => return Err(Fault::Word),
        Type::Reference if state.is_board() && names_board(field.bytes) => return Err(Fault::Word),
        Type::Date | Type::Text | Type::Reference | Type::HolePart => {
            columns[1] = field.bytes.len() as i64;
            field.start as i64
        }
    };
    Ok(())
}

/// The place of a bare word in a list.
fn word(list: &[&str], bare: Option<&[u8]>) -> Option<i64> {
    let bare = bare?;
    let place = list.iter().position(|word| is_word(word, bare))?;
    Some(place as i64)
}

/// Whether bytes are a word in some mixture of letter case.
fn is_word(word: &str, bytes: &[u8]) -> bool {
    word.as_bytes().eq_ignore_ascii_case(bytes)
}

/// Whether a reference means BOARD, which is one in panels only.
pub fn names_board(reference: &[u8]) -> bool {
    Type::Reference.meant(reference) == BOARD_NAME.as_bytes()
}
