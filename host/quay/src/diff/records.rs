//! The records of a file: its rows with the bytes that their texts stand in.

use quayladle::{Row, LINE, STRIDE};

use super::kinds::{Field, Kind, Type};
use super::values::Value;

/// A record of a file.
#[derive(Debug, Clone, Copy)]
pub struct Record<'a> {
    row: &'a Row,
    file: &'a [u8],
}

impl<'a> Record<'a> {
    /// Its kind.
    pub fn kind(self) -> Kind {
        Kind(self.row[0])
    }

    /// The line that it came from.
    pub fn line(self) -> i64 {
        self.row[LINE]
    }

    /// Its fields, each with what it means.
    pub fn fields(self) -> impl Iterator<Item = (&'static Field, Value<'a>)> {
        let mut column = 1;
        self.kind().fields().iter().map(move |field| {
            let value = self.value(field, column);
            column += field.columns();
            (field, value)
        })
    }

    /// What it means, field by field.
    pub fn values(self) -> impl Iterator<Item = Value<'a>> {
        self.fields().map(|(_, value)| value)
    }

    /// The texts that tell it from its neighbours of the same kind.
    pub fn names(self) -> impl Iterator<Item = Value<'a>> {
        let keys = self.fields().filter(|(field, _)| field.is_key);
        keys.map(|(_, value)| value).filter(|value| matches!(value, Value::Text(_)))
    }

    fn value(self, field: &Field, column: usize) -> Value<'a> {
        let number = self.row[column];
        match field.holds {
            Type::Word(list) => Value::Word(list.get(number as usize).copied().unwrap_or_default()),
            Type::Version => Value::Word("3.0"),
            Type::Number => Value::Number(number),
            Type::Integer => Value::Integer(number),
            Type::Text => {
                Value::Text(quayladle::text(self.row, column, self.file).unwrap_or_default())
            }
        }
    }
}

/// The records of an accepted file.
pub struct Records<'a> {
    /// The file's name, as it can be printed.
    pub name: &'a str,
    file: &'a [u8],
    /// The numbers of its rows, one row behind the other: a copy row by row would take time.
    numbers: Vec<i64>,
    openings: Vec<usize>,
}

impl<'a> Records<'a> {
    /// Those of a file by its name; none if it is refused.
    pub fn read(name: &'a str, file: &'a [u8]) -> Self {
        // A file has no more rows than lines, and room that is not written to takes no time.
        let lines = file.iter().filter(|&&byte| byte == b'\n').count() + 1;
        let mut numbers = vec![0; lines * STRIDE];
        let count = quayladle::read(file, &mut numbers).done().unwrap_or_default() as usize;
        numbers.truncate(count * STRIDE);
        let mut records = Records { name, file, numbers, openings: Vec::new() };
        records.openings = (0..count).filter(|&place| records.at(place).kind().opens()).collect();
        records
    }

    /// How many there are.
    pub fn len(&self) -> usize {
        self.numbers.len() / STRIDE
    }

    /// The record at a place from 0, which is below their number.
    pub fn at(&self, place: usize) -> Record<'_> {
        let numbers = &self.numbers[place * STRIDE..][..STRIDE];
        Record { row: numbers.try_into().expect("as many as a row has"), file: self.file }
    }

    /// The placement that a position belongs to; no other record has one.
    pub fn placement_of(&self, place: usize) -> Option<Record<'_>> {
        let is_position = self.at(place).kind() == Kind::POSITION;
        let before = place.checked_sub(1).filter(|_| is_position)?;
        Some(self.at(before))
    }

    /// The record that names the section of another, if its section has one.
    pub fn title_of(&self, place: usize) -> Option<Record<'_>> {
        let before = self.openings.partition_point(|&opening| opening <= place);
        let title = self.openings[before.checked_sub(1)?] + 1;
        let there = Some(title).filter(|&title| title < self.len())?;
        Some(self.at(there)).filter(|record| record.kind().is_title())
    }
}

#[cfg(test)]
mod tests {
    use super::*;

    /// A record's canonical line, by the table of kinds.
    fn line(record: Record) -> Vec<u8> {
        let kind = record.kind();
        let lead = match kind.noun() {
            keyword if keyword.starts_with('.') => Some(keyword.into_bytes()),
            noun if noun == "property" => Some(b"PROP".to_vec()),
            _ => None,
        };
        let values = record.values().map(|value| {
            let quote = value.quote().as_bytes();
            [quote, &value.bytes(), quote].concat()
        });
        lead.into_iter().chain(values).collect::<Vec<_>>().join(&b' ')
    }

    /// Each record of an accepted file, put together by the table, is a line of its canonical text.
    fn is_read(name: &str, file: &[u8]) {
        let records = Records::read(name, file);
        let canonical = quayladle::canon(file).expect("a canonical text");
        let lines: Vec<&[u8]> = canonical.split(|&byte| byte == b'\n').collect();
        assert_eq!(lines.len(), records.len() + 1, "{name}");
        for (place, expected) in lines[..records.len()].iter().enumerate() {
            let line = line(records.at(place));
            assert_eq!(&line, expected, "{name}: record {place}");
        }
    }

    #[test]
    fn records_of_generated_files_say_what_their_canonical_text_says() {
        for seed in (0..2_000).step_by(2) {
            is_read(&format!("seed {seed}"), &generate::file(seed));
        }
    }

    #[test]
    fn records_of_every_kind_do() {
        let board = include_bytes!("../../../../samples/board_dated.emn");
        let panel = include_bytes!("../../../../samples/panel_dated.emn");
        let library = include_bytes!("../../../../samples/library_dated.emp");
        for (name, file) in [("board", &board[..]), ("panel", panel), ("library", library)] {
            is_read(name, file);
        }
    }
}
