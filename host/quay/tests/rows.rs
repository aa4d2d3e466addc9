//! Rows as `quay rows` prints them and `quay write` takes them.

mod common;

use std::ffi::OsStr;
use std::fs;
use std::process::Output;

use common::{folder, run, said, sample, text};

#[test]
fn rows_are_eleven_numbers_a_line() {
    let (words, code) = said("rows shelf/libraries/connectors.emp");
    assert_eq!(words.lines().count(), 11);
    assert_eq!(words.lines().nth(1), Some("11 2 300000 26 21 49 19 1 0 0 2"));
    assert_eq!(code, 0);
    assert_eq!(said("rows --plain board.emn"), ("9 2 0\n".to_string(), 1));
    assert_eq!(said("rows board.emn"), (String::new(), 1));
}

#[test]
fn a_row_ends_with_its_line() {
    let file = sample("shelf/boards/main_respaced.emn");
    let written = text(&file);
    let lines = written.lines().enumerate();
    let of_records =
        lines.filter(|(_, line)| !line.starts_with('#') && line.contains(|letter| letter != ' '));
    let (words, _) = said("rows shelf/boards/main_respaced.emn");
    let last = words.lines().map(|row| row.rsplit(' ').next().expect("a number").to_string());
    let expected = of_records.map(|(place, _)| (place + 1).to_string());
    assert_eq!(last.collect::<Vec<_>>(), expected.collect::<Vec<_>>());
}

#[test]
fn rows_are_written_over_their_text() {
    let folder = folder("write");
    let rows = folder.join("rows");
    fs::write(&rows, run(&["rows", "panel_dated.emn"]).stdout).expect("a file");
    let written = run(&[OsStr::new("write"), rows.as_os_str(), OsStr::new("panel_dated.emn")]);
    assert_eq!(written.stdout, run(&["canon", "panel_dated.emn"]).stdout);

    let refused = run(&[OsStr::new("write"), rows.as_os_str(), OsStr::new("/dev/null")]);
    assert_eq!((text(&refused.stdout).as_str(), refused.status.code()), ("15 0 0\n", Some(1)));

    fs::write(&rows, "10 0\n11 x\n").expect("a file");
    let broken = run(&[OsStr::new("write"), rows.as_os_str(), OsStr::new("panel_dated.emn")]);
    assert_eq!((broken.stdout.len(), broken.status.code()), (0, Some(2)));
    assert!(text(&broken.stderr).contains("rows:2: a row is eleven whole numbers"));
}

/// What `write` does with rows over the text of a sample; the rows are put into a folder of this name.
fn written(name: &str, rows: &str, sample: &str) -> Output {
    let file = folder(name).join("rows");
    fs::write(&file, rows).expect("a file");
    run(&[OsStr::new("write"), file.as_os_str(), OsStr::new(sample)])
}

/// The rows of a sample, each without its last number, as they were before they had their lines.
fn rows_of_ten(sample: &str) -> String {
    let (rows, _) = said(&format!("rows {sample}"));
    let tens = rows.lines().map(|row| row.rsplit_once(' ').expect("two numbers").0);
    tens.map(|row| format!("{row}\n")).collect()
}

#[test]
fn rows_of_ten_numbers_are_told() {
    // The second has as many numbers as ten rows of eleven have.
    for sample in ["panel_dated.emn", "shelf/libraries/connectors.emp"] {
        let output = written("tens", &rows_of_ten(sample), sample);
        assert_eq!((output.stdout.len(), output.status.code()), (0, Some(2)), "{sample}");
        let told = text(&output.stderr);
        assert!(
            told.contains("rows: rows of ten numbers, as older versions printed them"),
            "{told}"
        );
    }
}

#[test]
fn rows_may_be_laid_out_freely() {
    let sample = "shelf/libraries/connectors.emp";
    let (rows, _) = said(&format!("rows {sample}"));
    let numbers: Vec<&str> = rows.split_whitespace().collect();
    for width in [1, 3, 10, 11, 200] {
        let lines = numbers.chunks(width).map(|line| format!(" {}\n\n", line.join("  ")));
        let output = written("free", &lines.collect::<String>(), sample);
        assert_eq!(Ok(output.stdout), second::canon(&self::sample(sample)), "{width}");
    }
    let empty = written("free", "", sample);
    assert_eq!((text(&empty.stdout).as_str(), empty.status.code()), ("15 0 0\n", Some(1)));
}
