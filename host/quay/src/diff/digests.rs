//! Numbers that records are matched by: two records that are alike at a level have one number there.

use std::hash::{BuildHasher, Hash, Hasher};
use std::ops::Range;

use ahash::RandomState;

use super::kinds::{Field, Kind};
use super::records::{Record, Records};

/// What records are matched by.
#[derive(Debug, Clone, Copy)]
pub enum Level {
    /// All that they say.
    Meaning,
    /// Their kind, and the fields that tell them from their neighbours.
    Name,
    /// Their kind.
    Kind,
}

/// Makes the numbers. It is keyed anew in each run, so that no file can be made to have many records of one number.
#[derive(Default)]
pub struct Digester(RandomState);

impl Digester {
    /// The numbers of a run of records at a level.
    pub fn run(&self, level: Level, records: &Records, run: Range<usize>) -> Vec<u64> {
        match level {
            Level::Meaning => self.meanings(records, run),
            Level::Name => run.map(|place| self.name(records, place)).collect(),
            Level::Kind => run.map(|place| records.at(place).kind().0 as u64).collect(),
        }
    }

    /// An opening line or a placement is known by the line behind it too, and a position by its placement, so that sections
    /// and placements are matched with their own.
    fn meanings(&self, records: &Records, run: Range<usize>) -> Vec<u64> {
        let own = run.clone().map(|place| self.digest(records.at(place), |_| true));
        let mut digests: Vec<u64> = own.collect();
        let mut before = None;
        for (at, place) in run.enumerate() {
            let this = digests[at];
            let beside = match records.at(place).kind() {
                kind if kind.opens() || kind == Kind::PLACEMENT => digests.get(at + 1).copied(),
                Kind::POSITION => before,
                _ => None,
            };
            digests[at] = beside.map_or(this, |beside| self.0.hash_one((this, beside)));
            before = Some(this);
        }
        digests
    }

    /// A position has the name of its placement.
    fn name(&self, records: &Records, place: usize) -> u64 {
        let record = records.at(place);
        let named = records.placement_of(place).unwrap_or(record);
        self.0.hash_one((record.kind(), self.digest(named, |field| field.is_key)))
    }

    fn digest(&self, record: Record, counts: impl Fn(&Field) -> bool) -> u64 {
        let mut hasher = self.0.build_hasher();
        record.kind().hash(&mut hasher);
        let fields = record.fields().filter(|(field, _)| counts(field));
        fields.for_each(|(_, value)| value.hash(&mut hasher));
        hasher.finish()
    }
}
