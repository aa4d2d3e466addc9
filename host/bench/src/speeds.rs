//! The first table: every operation on boards, panels and libraries of each size.

use std::sync::Arc;
use std::time::Duration;

use crate::asking::{Operation, Subject};
use crate::files::{Placed, MIB};
use crate::table::{figure, Table};
use crate::timing::{Clock, Differs, Times};

/// Sizes that are run once, to tell what the first one of the table will take.
const PILOTS: [usize; 2] = [MIB / 16, MIB / 4];

/// The kinds of file; libraries come last, since what takes too long does so on them.
#[derive(Debug, Clone, Copy, PartialEq, Eq)]
pub enum Kind {
    /// A board, and a library of a quarter of its size.
    Board,
    /// A panel, likewise.
    Panel,
    /// A library.
    Library,
}

impl Kind {
    /// Every kind.
    pub const ALL: [Kind; 3] = [Kind::Board, Kind::Panel, Kind::Library];

    /// Its name.
    pub fn name(self) -> &'static str {
        match self {
            Kind::Board => "board",
            Kind::Panel => "panel",
            Kind::Library => "library",
        }
    }

    /// A file of this kind and size in words.
    pub fn sized(self, size: usize) -> String {
        format!("{} of {} MiB", self.name(), size / MIB)
    }

    /// A file of this kind and size.
    pub fn subject(self, size: usize) -> Subject {
        match self {
            Kind::Board => Subject::placed(Placed::Board, size),
            Kind::Panel => Subject::placed(Placed::Panel, size),
            Kind::Library => Subject::library(size),
        }
    }
}

/// One row of the table.
#[derive(Debug, Clone, Copy)]
pub struct Speed {
    /// The kind of file.
    pub kind: Kind,
    /// What was asked.
    pub operation: Operation,
    /// The size asked for.
    pub size: usize,
    /// The bytes that the operation goes through.
    pub bytes: usize,
    /// The best times.
    pub times: Times,
    /// The proved library's time per byte, over that at the smallest size.
    pub growth: Option<f64>,
}

impl Speed {
    /// The file and its size in words.
    pub fn name(&self) -> String {
        self.kind.sized(self.size)
    }

    /// MiB in a second.
    fn rate(&self, time: Duration) -> f64 {
        self.bytes as f64 / MIB as f64 / time.as_secs_f64()
    }
}

/// The seconds that a byte takes.
pub fn per_byte(time: Option<Duration>, bytes: usize) -> Option<f64> {
    Some(time?.as_secs_f64() / bytes as f64)
}

/// Times every operation on every kind of file, at these sizes.
pub fn measured(clock: &mut Clock, sizes: &[usize]) -> Result<Vec<Speed>, Differs> {
    let mut speeds = Vec::new();
    for kind in Kind::ALL {
        eprintln!("bench: making {} files", kind.name());
        let made = |size: &usize| Arc::new(kind.subject(*size));
        let pilots: Vec<_> = PILOTS.iter().map(made).collect();
        let subjects: Vec<_> = sizes.iter().map(made).collect();
        for operation in Operation::ALL {
            if pilots.iter().all(|pilot| pilot.allows(operation)) {
                let times = clock.climb(kind.name(), operation, &pilots, &subjects)?;
                speeds.extend(rows(kind, operation, sizes, &subjects, &times));
            }
        }
    }
    Ok(speeds)
}

/// The rows of one operation on one kind of file.
fn rows(
    kind: Kind,
    operation: Operation,
    sizes: &[usize],
    subjects: &[Arc<Subject>],
    times: &[Times],
) -> Vec<Speed> {
    let bytes = |place: usize| subjects[place].bytes(operation);
    let smallest = per_byte(times[0].proved, bytes(0));
    let row = |place: usize| Speed {
        kind,
        operation,
        size: sizes[place],
        bytes: bytes(place),
        times: times[place],
        growth: smallest
            .and_then(|smallest| Some(per_byte(times[place].proved, bytes(place))? / smallest)),
    };
    (0..times.len()).map(row).collect()
}

/// The table; `over` stands where the proved library is over the limit.
pub fn table(speeds: &[Speed], over: &str) -> Table {
    let names = ["file", "operation", "size", "proved MiB/s", "second MiB/s", "ratio", "growth"];
    let mut table = Table::new(2, &names);
    for speed in speeds {
        let rate = |time: Option<Duration>| {
            time.map_or(over.to_string(), |time| format!("{:.1}", speed.rate(time)))
        };
        table.add([
            speed.kind.name().to_string(),
            speed.operation.to_string(),
            format!("{} MiB", speed.size / MIB),
            rate(speed.times.proved),
            rate(speed.times.second),
            figure(speed.times.ratio()),
            figure(speed.growth),
        ]);
    }
    table
}
