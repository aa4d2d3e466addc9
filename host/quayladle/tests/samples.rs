//! The sample files of source document 001, one by one and in pairs, against the second reader.

mod common;

use std::path::PathBuf;

use common::{agreed, agreed_on_both, agreed_on_rows};
use generate::windows_copy;
use quayladle::LINE;

/// The samples and the number that the notes beside them list for each.
const SAMPLES: [(&str, u64); 10] = [
    ("panel.emn", 9),
    ("board.emn", 9),
    ("library.emp", 9),
    ("panel_dated.emn", 0),
    ("board_dated.emn", 0),
    ("library_dated.emp", 0),
    ("library_dated_word.emp", 0),
    ("shelf/boards/main_windows.emn", 0),
    ("shelf/boards/plate_letters.emn", 0),
    ("shelf/libraries/hardware.emp", 0),
];

fn sample(name: &str) -> Vec<u8> {
    let folder: PathBuf = [env!("CARGO_MANIFEST_DIR"), "..", "..", "samples"].iter().collect();
    std::fs::read(folder.join(name)).expect("a sample file")
}

#[test]
fn samples() {
    for (name, number) in SAMPLES {
        assert_eq!(agreed(name, &sample(name)).number, number, "{name}");
    }
}

#[test]
fn pairs_of_samples() {
    for (first, _) in SAMPLES {
        for (second, _) in SAMPLES {
            agreed_on_both(format_args!("{first}, {second}"), &sample(first), &sample(second));
        }
    }
}

#[test]
fn every_sample_torn_at_every_byte() {
    for name in ["panel_dated.emn", "library_dated_word.emp", "shelf/boards/plate_letters.emn"] {
        let file = sample(name);
        for file in [&file, &windows_copy(&file)] {
            for length in 0..file.len() {
                agreed(format_args!("{name} up to {length} of {}", file.len()), &file[..length]);
            }
        }
    }
}

#[test]
fn every_number_of_the_rows_of_a_sample_changed() {
    let file = sample("panel_dated.emn");
    let rows = quayladle::rows(&file).expect("an accepted file").concat();
    for place in 0..rows.len() {
        for change in [-1, 1, 100_000] {
            let mut changed = rows.clone();
            changed[place] += change;
            agreed_on_rows(format_args!("number {place} changed by {change}"), &changed, &file);
        }
    }
}

#[test]
fn every_line_of_the_rows_of_a_sample_changed() {
    let file = sample("board_dated.emn");
    let rows = quayladle::rows(&file).expect("an accepted file");
    let mut seen = [0; 16];
    for place in 0..rows.len() {
        let (before, line) = (rows[place.saturating_sub(1)][LINE], rows[place][LINE]);
        for other in [0, -1, 1, i64::MIN, i64::MAX, -line, before, before + 1, line + 1] {
            let mut changed = rows.clone();
            changed[place][LINE] = other;
            let name = format_args!("line {line} changed to {other}");
            seen[agreed_on_rows(name, &changed.concat(), &file).number as usize] += 1;
        }
    }
    assert!(seen[0] > 0 && seen[15] > 0, "{seen:?}");
}
