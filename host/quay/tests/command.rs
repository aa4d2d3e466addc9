//! The command as people run it: what it prints on the samples, and its exit codes.

mod common;

use std::ffi::OsStr;
use std::fs;
use std::os::fd::OwnedFd;
use std::os::unix::net::UnixStream;

use serde_json::{json, Value};
use sha2::{Digest, Sha256};

use common::{folder, quay, run, said, sample, text};

#[test]
fn check_says_a_line_for_each_file() {
    let (words, code) = said("check board_dated.emn shelf/boards/main_torn.emn");
    let expected = "board_dated.emn: accepted, 215 rows\n\
        shelf/boards/main_torn.emn:120: 6 number of fields: the line has too few fields or too many\n";
    assert_eq!((words.as_str(), code), (expected, 1));
    assert_eq!(said("check board_dated.emn").1, 0);
}

#[test]
fn check_plainly() {
    let (words, code) =
        said("check --plain board.emn panel_dated.emn shelf/libraries/parts_broken.emp");
    assert_eq!((words.as_str(), code), ("9 2 0\n0 0 39\n11 38 0\n", 1));
}

#[test]
fn a_file_that_cannot_be_read_keeps_no_other_from_its_answer() {
    let output = run(&["check", "--plain", "no such file", "panel_dated.emn", "shelf"]);
    assert_eq!((text(&output.stdout).as_str(), output.status.code()), ("0 0 39\n", Some(2)));
    let told = text(&output.stderr);
    assert!(told.starts_with("quay: no such file: ") && told.contains("\nquay: shelf: "), "{told}");
}

#[test]
fn a_wrong_command_line_ends_with_2() {
    for line in ["check", "same board.emn", "mend board.emn", "check --fast board.emn"] {
        assert_eq!(said(line), (String::new(), 2), "{line}");
    }
    assert_eq!(said("help").1, 0);
    assert_eq!(said("--version"), ("quay 0.1.0\n".to_string(), 0));
}

#[test]
fn canonical_text_is_that_of_the_second_reader() {
    for name in [
        "board_dated.emn",
        "panel_dated.emn",
        "shelf/boards/main_respaced.emn",
        "shelf/boards/main_windows.emn",
        "shelf/boards/plate_letters.emn",
    ] {
        assert_eq!(Ok(run(&["canon", name]).stdout), second::canon(&sample(name)), "{name}");
    }
    assert_eq!(said("canon --plain library.emp"), ("9 2 0\n".to_string(), 1));
    assert_eq!(said("canon library.emp"), (String::new(), 1));
}

#[test]
fn same_tells_copies_from_revisions() {
    let main = "shelf/boards/main.emn";
    let table = [
        ("shelf/boards/main_copy.emn", "0 0 1 0\n", 0),
        ("shelf/boards/main_respaced.emn", "0 0 1 0\n", 0),
        ("shelf/boards/main_windows.emn", "0 0 1 0\n", 0),
        ("shelf/boards/main_rev_b.emn", "0 0 0 0\n", 1),
        ("shelf/boards/main_torn.emn", "6 120 0 2\n", 1),
        ("/dev/null", "13 1 0 2\n", 1),
    ];
    for (other, verdict, code) in table {
        assert_eq!(said(&format!("same --plain {main} {other}")), (verdict.to_string(), code));
    }
    let plates = "same --plain shelf/boards/plate.emn shelf/boards/plate_letters.emn";
    assert_eq!(said(plates), ("0 0 1 0\n".to_string(), 0));
    let (words, _) = said("same shelf/boards/main.emn shelf/boards/main_rev_b.emn");
    assert_eq!(words, "shelf/boards/main.emn, shelf/boards/main_rev_b.emn: not the same\n");
    assert_eq!(said("same board.emn nothing").1, 2);
}

#[test]
fn judge_names_the_placement_that_lacks_its_entry() {
    let (words, code) = said("judge board_dated.emn shelf/libraries/connectors.emp");
    assert_eq!(
        words,
        "board_dated.emn:193: 16 no library entry: the library has no component with this package and part; \
        it is placement 1 (cs13_a pn-cap C1)\n"
    );
    assert_eq!(code, 1);
    let (words, code) = said("judge shelf/boards/plate_letters.emn shelf/libraries/connectors.emp");
    assert!(words.starts_with("shelf/boards/plate_letters.emn:29: 16 "), "{words}");
    assert!(words.ends_with("; it is placement 1 (screw_m3 pn-m3x8 NOREFDES)\n"), "{words}");
    assert_eq!(code, 1);
    let table = [
        ("shelf/boards/plate_letters.emn shelf/libraries/hardware.emp", "0 0 3 0\n", 0),
        ("board_dated.emn library_dated.emp", "0 0 11 0\n", 0),
        ("board_dated.emn shelf/libraries/parts.emp", "0 0 11 0\n", 0),
        ("board_dated.emn shelf/libraries/connectors.emp", "16 0 1 1\n", 1),
        ("board_dated.emn shelf/libraries/parts_broken.emp", "11 38 0 2\n", 1),
        ("shelf/libraries/parts.emp board_dated.emn", "17 0 0 1\n", 1),
        ("board_dated.emn panel_dated.emn", "17 0 0 2\n", 1),
    ];
    for (files, verdict, code) in table {
        assert_eq!(said(&format!("judge --plain {files}")), (verdict.to_string(), code), "{files}");
    }
}

#[test]
fn a_file_over_the_limit_is_answered_without_being_read_whole() {
    let large = folder("large").join("large.emn");
    // A hole of a terabyte: to read it whole would take longer than anybody waits.
    fs::File::create(&large).and_then(|file| file.set_len(1 << 40)).expect("a sparse file");
    let output = run(&[OsStr::new("check"), OsStr::new("--plain"), large.as_os_str()]);
    assert_eq!((text(&output.stdout).as_str(), output.status.code()), ("1 0 0\n", Some(1)));
    let shelf = run(&[OsStr::new("shelf"), large.parent().expect("a folder").as_os_str()]);
    let words = text(&shelf.stdout);
    assert!(
        words.contains("1,099,511,627,776 bytes\n") && words.contains("large.emn: 1 too large"),
        "{words}"
    );
}

#[test]
fn a_reader_that_goes_away_is_no_fault() {
    for line in ["rows board_dated.emn", "diff --limit 0 board_dated.emn panel_dated.emn"] {
        // Gone before the command starts: one that reads what is printed may be done before its end is closed.
        let (reader, writer) = UnixStream::pair().expect("two ends");
        drop(reader);
        let output =
            quay().args(line.split(' ')).stdout(OwnedFd::from(writer)).output().expect("it ends");
        assert_eq!((text(&output.stderr).as_str(), output.status.code()), ("", Some(0)), "{line}");
    }
}

#[test]
fn a_full_disk_is_told() {
    let full = fs::OpenOptions::new().write(true).open("/dev/full").expect("Linux has it");
    let output = quay().args(["rows", "board_dated.emn"]).stdout(full).output().expect("it starts");
    assert_eq!(output.status.code(), Some(2));
    assert!(text(&output.stderr).starts_with("quay: standard output: "));
}

#[test]
fn shelf_in_words() {
    let expected = "\
shelf: 13 IDF files, 55,523 bytes
      11 whole
       2 refused
       1 passed over by name

Refused:
  boards/main_torn.emn:120: 6 number of fields: the line has too few fields or too many
  libraries/parts_broken.emp:38: 11 loop rule: a loop not closed, a point repeated, or a wrong label or angle

The same, record by record:
  boards/main.emn: 215 records
    boards/main_copy.emn: an exact copy, 9,528 bytes
    boards/main_respaced.emn: other bytes, the same records, 5,638 bytes
    boards/main_windows.emn: other bytes, the same records, 9,743 bytes
  boards/plate.emn: 35 records
    boards/plate_letters.emn: other bytes, the same records, 1,100 bytes

Keeping the first of each would free 26,009 bytes. Nothing was deleted.
";
    let output = run(&["shelf", "shelf"]);
    assert_eq!((text(&output.stdout).as_str(), output.status.code()), (expected, Some(0)));
    assert!(output.stderr.is_empty(), "progress is for terminals");
}

#[test]
fn shelf_in_json() {
    let (words, code) = said("shelf --json shelf");
    let value: Value = serde_json::from_str(&words).expect("JSON");
    assert_eq!(code, 0);
    assert_eq!(
        (&value["totals"]["whole"], &value["totals"]["bytes_freed"]),
        (&11.into(), &26009.into())
    );
    let group = &value["same"][0];
    let others: Vec<&Value> = group["others"].as_array().expect("a list").iter().collect();
    assert_eq!(group["first"], "boards/main.emn");
    assert_eq!(
        (&others[0]["name"], &others[0]["exact_copy"]),
        (&"boards/main_copy.emn".into(), &true.into())
    );
    assert_eq!(
        others[1]["same_as_first"],
        json!({ "number": 0, "line": 0, "count": 1, "which": 0 })
    );
    let empty = run(&[OsStr::new("shelf"), OsStr::new("--json"), folder("empty").as_os_str()]);
    let value: Value = serde_json::from_slice(&empty.stdout).expect("JSON");
    assert_eq!((&value["totals"]["files"], &value["same"]), (&0.into(), &json!([])));
}

#[test]
fn shelf_as_a_page() {
    let page = folder("page").join("shelf.html");
    let output =
        run(&[OsStr::new("shelf"), OsStr::new("shelf"), OsStr::new("--report"), page.as_os_str()]);
    assert_eq!(output.status.code(), Some(0));
    let page = fs::read_to_string(page).expect("a page");
    let file = sample("shelf/boards/main_respaced.emn");
    for part in [
        "<dt>whole</dt><dd>11</dd>".to_string(),
        "<td>boards/main_torn.emn</td><td class=\"number\">120</td><td class=\"number\">6</td>"
            .to_string(),
        "<td>0 0 1 0</td>".to_string(),
        sha256(&file),
        sha256(&second::canon(&file).expect("an accepted file")),
    ] {
        assert!(page.contains(&part), "the page lacks {part}");
    }
    assert!(!page.contains("http"), "the page needs nothing from elsewhere");
    let unwritable = run(&["shelf", "shelf", "--report", "/no such folder/shelf.html"]);
    assert_eq!(unwritable.status.code(), Some(2));
}

fn sha256(bytes: &[u8]) -> String {
    format!("{:x}", Sha256::digest(bytes))
}

#[test]
fn shelf_takes_odd_names_and_unreadable_places() {
    let folder = folder("odd");
    for name in ["<b>&.EMP", "two\nlines.emp", "not idf.txt"] {
        fs::write(folder.join(name), sample("shelf/libraries/parts.emp")).expect("a file");
    }
    std::os::unix::fs::symlink("nowhere", folder.join("link.emp")).expect("a link");
    let page = folder.join("page.html");
    let output =
        run(&[OsStr::new("shelf"), folder.as_os_str(), OsStr::new("--report"), page.as_os_str()]);
    let words = text(&output.stdout);
    assert_eq!(output.status.code(), Some(0), "{words}");
    assert!(words.contains("2 passed over by name"), "{words}");
    assert!(words.contains("two\\nlines.emp: an exact copy"), "{words}");
    let page = fs::read_to_string(page).expect("a page");
    assert!(page.contains("&lt;b&gt;&amp;.EMP") && !page.contains("<b>"));
    assert_eq!(said("shelf nowhere").1, 2);
    // `rt ci` takes no folder that has a link in it.
    fs::remove_file(folder.join("link.emp")).expect("the link");
}

#[test]
fn fields_with_their_places() {
    let file = folder("fields").join("lines");
    fs::write(&file, b"a \"b c\" #x\r\n# note\r\n\tz\nq\"\nd\r\n").expect("a file");
    let name = file.to_str().expect("a name");
    let (words, code) = said(&format!("fields {name}"));
    let expected = format!(
        "1:0+1 a\n1:3+3 b c\n1:8+2 #x\n\
        {name}:3: 3 forbidden byte: a tab or another control byte; a carriage return may stand only before a line feed, \
        or in a comment\n\
        {name}:4: 4 broken quoting: a quote inside a bare field, or none at a quoted field's end\n\
        5:26+1 d\n"
    );
    assert_eq!((words, code), (expected, 1));
    let plain = "0 0 3 0 1 3 3 8 2\n0 0 0\n3 3 0\n4 4 0\n0 0 1 26 1\n13 6 0\n";
    assert_eq!(said(&format!("fields --plain {name}")), (plain.to_string(), 1));
    assert_eq!(said("fields --plain board.emn").1, 0);
}
