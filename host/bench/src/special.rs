//! The second table: files on which a reader that looks names up one by one takes too long, and Windows copies.

use std::sync::Arc;
use std::time::Duration;

use crate::asking::{Operation, Subject};
use crate::files::{LARGEST, MIB, MOST_COMPONENTS};
use crate::speeds::{per_byte, Kind, Speed};
use crate::table::{figure, Table};
use crate::timing::{Clock, Differs, Times};

/// How many placements are judged by how many components in case b.
const PLACEMENTS: usize = 50_000;
const COMPONENTS: usize = 20_000;
/// The size of the files in case e: there is room for their Windows copies.
const COPIED: usize = 4 * MIB;

/// One special case: what it takes, and that over what it is held against.
pub struct Special {
    /// The letter by which the bounds name it.
    pub letter: char,
    what: String,
    times: Times,
    /// The proved library's ratio.
    pub proved: Option<f64>,
    second: Option<f64>,
}

/// The special cases; a and c are of files that the first table has timed.
pub fn measured(clock: &mut Clock, speeds: &[Speed]) -> Result<Vec<Special>, Differs> {
    let judged = judging(clock)?;
    let crowded = crowded(clock)?;
    let copied = Kind::ALL.into_iter().map(|kind| windows(clock, kind));
    let copied = copied.collect::<Result<Vec<_>, _>>()?;
    let mut cases = Vec::new();
    cases.extend(against_board(speeds, Operation::Check, 'a'));
    cases.push(judged);
    cases.extend(against_board(speeds, Operation::Write, 'c'));
    cases.push(crowded);
    cases.extend(copied);
    Ok(cases)
}

/// The largest library's time per byte over that of the largest board, if both were timed.
fn against_board(speeds: &[Speed], operation: Operation, letter: char) -> Option<Special> {
    let largest = |kind: Kind| {
        let wanted = |speed: &&Speed| (speed.kind, speed.operation) == (kind, operation);
        speeds.iter().filter(wanted).find(|speed| speed.size == LARGEST)
    };
    let (library, board) = (largest(Kind::Library)?, largest(Kind::Board)?);
    let ratio = |time: fn(&Times) -> Option<Duration>| {
        let of = |speed: &Speed| per_byte(time(&speed.times), speed.bytes);
        Some(of(library)? / of(board)?)
    };
    Some(Special {
        letter,
        what: format!(
            "{operation} a library of 16 MiB with {} components; per byte, over {operation} of a board of 16 MiB",
            thousands(MOST_COMPONENTS)
        ),
        times: library.times,
        proved: ratio(|times| times.proved),
        second: ratio(|times| times.second),
    })
}

/// Judging over checking both files.
fn judging(clock: &mut Clock) -> Result<Special, Differs> {
    eprintln!("bench: making a board of {PLACEMENTS} placements");
    let made = |share: usize| Arc::new(Subject::counted(PLACEMENTS / share, COMPONENTS / share));
    let pilots = [256, 64, 16, 4].map(made);
    let subject = [made(1)];
    let alone = |whole: &Arc<Subject>| whole.only_library().map(Arc::new);
    let library_pilots: Vec<_> = pilots.iter().filter_map(alone).collect();
    let library: Vec<_> = subject.iter().filter_map(alone).collect();
    let board = clock.climb("board of case b", Operation::Check, &pilots, &subject)?;
    let library = clock.climb("library of case b", Operation::Check, &library_pilots, &library)?;
    let judged = clock.climb("case b", Operation::Judge, &pilots, &subject)?;
    let ratio = |time: fn(&Times) -> Option<Duration>| {
        let seconds = |times: &Times| time(times).map(|time| time.as_secs_f64());
        Some(seconds(&judged[0])? / (seconds(&board[0])? + seconds(&library[0])?))
    };
    Ok(Special {
        letter: 'b',
        what: format!(
            "judge {} placements by {} components; over check of both files",
            thousands(PLACEMENTS),
            thousands(COMPONENTS)
        ),
        times: judged[0],
        proved: ratio(|times| times.proved),
        second: ratio(|times| times.second),
    })
}

/// Checking the library with the most components, per byte over a small one that is as full of them.
fn crowded(clock: &mut Clock) -> Result<Special, Differs> {
    eprintln!("bench: making libraries with as many components as fit");
    let made = |size: usize| Arc::new(Subject::crowded(size));
    let pilots = [MIB / 16, MIB / 4].map(made);
    let subjects = [MIB, 4 * MIB, LARGEST].map(made);
    let times = clock.climb("library of case d", Operation::Check, &pilots, &subjects)?;
    let bytes = |place: usize| subjects[place].bytes(Operation::Check);
    let ratio = |time: fn(&Times) -> Option<Duration>| {
        let of = |place: usize| per_byte(time(&times[place]), bytes(place));
        Some(of(2)? / of(0)?)
    };
    let components = subjects[2].file.iter().filter(|&&byte| byte == b'p').count();
    Ok(Special {
        letter: 'd',
        what: format!(
            "check a library of 16 MiB with {} components, the most; per byte, over one of 1 MiB as full",
            thousands(components)
        ),
        times: times[2],
        proved: ratio(|times| times.proved),
        second: ratio(|times| times.second),
    })
}

/// Checking a Windows copy over checking the file, which has as many lines; the two are timed by turns.
fn windows(clock: &mut Clock, kind: Kind) -> Result<Special, Differs> {
    let name = format!("Windows copy of a {}", kind.sized(COPIED));
    eprintln!("bench: making the {name}");
    let pilots = [COPIED / 16, COPIED / 4].map(|size| Arc::new(kind.subject(size)));
    let file = kind.subject(COPIED);
    let copy = file.windows().map_err(|fault| Differs(format!("{name}: {fault}")))?;
    let both = [file, copy].map(Arc::new);
    let times =
        clock.climb(&format!("{} of case e", kind.name()), Operation::Check, &pilots, &both)?;
    let ratio = |time: fn(&Times) -> Option<Duration>| {
        Some(time(&times[1])?.as_secs_f64() / time(&times[0])?.as_secs_f64())
    };
    Ok(Special {
        letter: 'e',
        what: format!("check the {name}; per line, over check of the file"),
        times: times[1],
        proved: ratio(|times| times.proved),
        second: ratio(|times| times.second),
    })
}

/// A number of thousands with its comma.
fn thousands(number: usize) -> String {
    format!("{},{:03}", number / 1000, number % 1000)
}

/// The table; `over` stands where the proved library is over the limit.
pub fn table(cases: &[Special], over: &str) -> Table {
    let names = ["", "case", "proved s", "second s", "proved ratio", "second ratio"];
    let mut table = Table::new(2, &names);
    for case in cases {
        let seconds = |time: Option<Duration>| {
            time.map_or(over.to_string(), |time| format!("{:.3}", time.as_secs_f64()))
        };
        table.add([
            case.letter.to_string(),
            case.what.clone(),
            seconds(case.times.proved),
            seconds(case.times.second),
            figure(case.proved),
            figure(case.second),
        ]);
    }
    table
}
