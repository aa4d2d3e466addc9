//! A record where it stands, as it is told to people.

use std::fmt;

use super::records::{Record, Records};

/// A record and its place in a file.
#[derive(Clone, Copy)]
pub struct Spot<'a> {
    records: &'a Records<'a>,
    place: usize,
}

impl<'a> Spot<'a> {
    /// The record at a place, which is below their number.
    pub fn new(records: &'a Records<'a>, place: usize) -> Self {
        Spot { records, place }
    }

    /// The record itself.
    pub fn record(self) -> Record<'a> {
        self.records.at(self.place)
    }

    /// Its section, with the names that tell it from others: `ELECTRICAL cs13_a pn-cap`.
    pub fn heading(self) -> String {
        let title = self.records.title_of(self.place);
        let names = title.into_iter().flat_map(Record::names).map(|name| format!(" {name}"));
        format!("{}{}", self.record().kind().section(), names.collect::<String>())
    }

    /// Its names, those of its placement for a position; what it is where it has none.
    pub fn label(self) -> String {
        let named = self.records.placement_of(self.place).unwrap_or(self.record());
        let names: Vec<String> = named.names().map(|name| name.to_string()).collect();
        match names.is_empty() {
            true => self.record().kind().noun(),
            false => names.join(" "),
        }
    }

    /// What it is: `.NOTES`, `hole`, `position of J1`.
    pub fn noun(self) -> String {
        let noun = self.record().kind().noun();
        match self.records.placement_of(self.place) {
            Some(_) => format!("{noun} of {}", self.label()),
            None => noun,
        }
    }
}

/// File and line: `main.emn:204`.
impl fmt::Display for Spot<'_> {
    fn fmt(&self, f: &mut fmt::Formatter) -> fmt::Result {
        write!(f, "{}:{}", self.records.name, self.record().line())
    }
}
