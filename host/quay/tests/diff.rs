//! `quay diff` as people run it.

mod common;

use std::ffi::OsStr;
use std::fs;

use generate::Random;
use serde_json::{json, Value};

use common::{folder, quay, run, said, sample, text};

const MAIN: &str = "shelf/boards/main.emn";
const PARTS: &str = "shelf/libraries/parts.emp";

/// What `diff` says of two files `a` and `b`, which are put into a folder of this name, and how it ends.
fn diff(name: &str, first: &[u8], second: &[u8], options: &[&str]) -> (String, i32) {
    let folder = folder(name);
    fs::write(folder.join("a"), first).expect("a file");
    fs::write(folder.join("b"), second).expect("a file");
    let arguments = [&["diff"], options, &["a", "b"]].concat();
    let output = quay().current_dir(&folder).args(arguments).output().expect("the command starts");
    (text(&output.stdout), output.status.code().expect("an exit code"))
}

/// A sample in which a part that occurs once is another.
fn edited(name: &str, from: &str, to: &str) -> Vec<u8> {
    let file = text(&sample(name));
    assert_eq!(file.matches(from).count(), 1, "{from}");
    file.replace(from, to).into_bytes()
}

/// What `diff` says of a sample and its edited copy.
fn diff_edited(folder: &str, name: &str, from: &str, to: &str) -> (String, i32) {
    diff(folder, &sample(name), &edited(name, from, to), &[])
}

#[test]
fn a_moved_connector_is_named_and_nothing_else() {
    let revision = "shelf/boards/main_rev_b.emn";
    let expected = format!(
        "{MAIN}, {revision}: not the same, 1 difference\n\n\
        PLACEMENT\n  {MAIN}:204 J1 x 1800.00000 → {revision}:204 1850.00000\n"
    );
    assert_eq!(said(&format!("diff {MAIN} {revision}")), (expected, 1));
    let back = format!(
        "{revision}, {MAIN}: not the same, 1 difference\n\n\
        PLACEMENT\n  {revision}:204 J1 x 1850.00000 → {MAIN}:204 1800.00000\n"
    );
    assert_eq!(said(&format!("diff {revision} {MAIN}")), (back, 1));
}

#[test]
fn files_that_are_the_same_or_refused_are_told_as_by_same() {
    for other in ["main", "main_copy", "main_respaced", "main_windows", "main_torn"] {
        for plain in ["", "--plain "] {
            let files = format!("{plain}{MAIN} shelf/boards/{other}.emn");
            assert_eq!(said(&format!("diff {files}")), said(&format!("same {files}")), "{files}");
        }
    }
    assert_eq!(said(&format!("diff --plain {MAIN} shelf/boards/main_copy.emn")).1, 0);
    assert_eq!(said("diff --plain shelf/boards/main_torn.emn nothing").1, 2);
}

#[test]
fn lines_are_those_of_each_file() {
    let mut revision = b"# a comment\n\n".to_vec();
    revision.extend(sample("shelf/boards/main_rev_b.emn"));
    let (words, _) = diff("lines", &sample("shelf/boards/main_respaced.emn"), &revision, &[]);
    assert!(
        words.ends_with("\nPLACEMENT\n  a:215 J1 x 1800.00000 → b:206 1850.00000\n"),
        "{words}"
    );
}

/// What is edited in the board, into what, the section, and what is told of it.
const OF_BOARD: &str = "\
\"Sample File | \"Simple File | HEADER | a:2 header system \"Sample File Generator\" → b:2 \"Simple File Generator\"
16:02:44 1 | 16:02:44 -7 | HEADER | a:2 header file version 1 → b:2 -7
THOU | MM | HEADER | a:3 header unit THOU → b:3 MM
.BOARD_OUTLINE            MCAD | .BOARD_OUTLINE ECAD | BOARD_OUTLINE | a:5 .BOARD_OUTLINE owner MCAD → b:5 ECAD
62.0 | -0.00001 | BOARD_OUTLINE | a:6 outline thickness 62.00000 → b:6 -0.00001
5155.0   2550.0   -180.0 | 5155 2550 -90 | BOARD_OUTLINE | a:11 point angle -180.00000 → b:11 -90.00000
100.0   2000.0    -50.0 | 99 2000 -50 | DRILLED_HOLES | a:182 hole diameter 100.00000 → b:182 99.00000
100.0   2000.0    -50.0 | 100 2001 -50 | DRILLED_HOLES | a:182 hole x 2000.00000 → b:182 2001.00000
4800.0    NPTH    BOARD | 4800 NPTH \"a hole\" | DRILLED_HOLES | a:184 hole part BOARD → b:184 \"a hole\"
Do not move |  | NOTES | a:190 \"Do not move connectors!\" text \"Do not move connectors!\" → b:190 \" connectors!\"
1799.5   3518.1      0.0      0.0   BOTTOM   PLACED | 1799.5 3518.1 0 0 top placed | PLACEMENT | a:202 C5 side BOTTOM → b:202 TOP
pn-cap           C1 | pn-cap C10 | PLACEMENT | a:193 C1 reference C1 → b:193 C10";

/// The same in the library.
const OF_LIBRARY: &str = "\
CAPACITANCE    100.0 | CAPACITANCE 99 | ELECTRICAL cs13_a pn-cap | a:19 CAPACITANCE property value 100.0 → b:19 99
435.0 | 436 | ELECTRICAL conn_din24 connector | a:33 conn_din24 connector height 435.00000 → b:33 436.00000
300.0    150.0      0.0 | 300 150 45 | ELECTRICAL conn_din24 connector | a:36 point angle 0.00000 → b:36 45.00000";

#[test]
fn fields_are_told_by_name() {
    for (name, table) in [(MAIN, OF_BOARD), (PARTS, OF_LIBRARY)] {
        for case in table.lines() {
            let parts: Vec<&str> = case.split(" | ").collect();
            let [from, to, section, told] = parts[..] else {
                panic!("{case}");
            };
            let expected = format!("a, b: not the same, 1 difference\n\n{section}\n  {told}\n");
            assert_eq!(diff_edited("fields", name, from, to), (expected, 1), "{case}");
        }
    }
}

#[test]
fn records_of_one_file_are_told_with_their_values() {
    let property = "PROP   TOLERANCE      5.0\n.END_ELECTRICAL\n.ELECTRICAL\n          cc1210";
    let added = property.replacen('\n', "\nPROP colour \"dark red\"\n", 1);
    let (words, code) = diff_edited("property", PARTS, property, &added);
    let expected = "a, b: not the same, 1 difference\n\nELECTRICAL cs13_a pn-cap\n  \
        b:21 only here: property, property name colour, property value \"dark red\"\n";
    assert_eq!((words.as_str(), code), (expected, 1));

    let placement = "          cc1210         pn-cc1210           C3\n  \
        3200.0   1800.0      0.0      0.0   BOTTOM   PLACED\n";
    let (words, _) = diff_edited("placement", MAIN, placement, "");
    let expected = "a, b: not the same, 2 differences\n\nPLACEMENT\n  \
        a:197 only here: placement, package cc1210, part pn-cc1210, reference C3\n  \
        a:198 only here: position of C3, x 3200.00000, y 1800.00000, offset 0.00000, rotation 0.00000, \
        side BOTTOM, status PLACED\n";
    assert_eq!(words, expected);
}

#[test]
fn a_section_of_one_file_is_told_whole() {
    let keepout = ".VIA_KEEPOUT ECAD\n0 1 1 0\n0 2 1 360\n.END_VIA_KEEPOUT\n";
    let (words, _) = diff_edited("section", MAIN, ".NOTES\n", &format!("{keepout}.NOTES\n"));
    let expected = "a, b: not the same, 4 differences\n\nVIA_KEEPOUT\n  \
        b:187 only here: .VIA_KEEPOUT, owner ECAD\n  \
        b:188 only here: point, label 0, x 1.00000, y 1.00000, angle 0.00000\n  \
        b:189 only here: point, label 0, x 2.00000, y 1.00000, angle 360.00000\n  \
        b:190 only here: .END_VIA_KEEPOUT\n";
    assert_eq!(words, expected);
    // Another one like it before, which begins with the same lines.
    let two = [keepout, &keepout.replace("2 1 360", "3 1 360")].concat();
    let first = edited(MAIN, ".NOTES\n", &format!("{keepout}.NOTES\n"));
    let (words, _) =
        diff("sections", &edited(MAIN, ".NOTES\n", &format!("{two}.NOTES\n")), &first, &[]);
    assert!(words.starts_with("a, b: not the same, 4 differences\n"), "{words}");
}

#[test]
fn no_more_differences_than_asked_for() {
    let files = format!("{MAIN} shelf/boards/plate.emn");
    let lines = |options: &str| said(&format!("diff {options}{files}")).0;
    let count = |words: String| words.lines().filter(|line| line.starts_with("  ")).count();
    let first = |words: String| words.lines().next().map(String::from).expect("a line");
    let start = format!("{MAIN}, shelf/boards/plate.emn: not the same, 246 differences");
    assert_eq!(first(lines("")), format!("{start}; below are the first 100, --limit 0 prints all"));
    assert_eq!(first(lines("--limit 0 ")), start);
    for (options, expected) in
        [("", 100), ("--limit 3 ", 3), ("--limit 0 ", 246), ("--limit 999 ", 246)]
    {
        assert_eq!(count(lines(options)), expected, "{options}");
    }
    assert_eq!(lines("--plain --limit 2 ").lines().count(), 4);
}

#[test]
fn plainly() {
    let mut other = edited(MAIN, "Do not move connectors!", "Ge\u{e4}ndert\u{2192}");
    other.truncate(other.len() - ".END_PLACEMENT\n".len());
    other.extend(b"p \"\xfc 1\" R1\n0 0 0 0 top placed\n.end_placement\n");
    let folder = folder("plainly");
    fs::write(folder.join("b"), other).expect("a file");
    let output =
        quay().args(["diff", "--plain", MAIN]).arg(folder.join("b")).output().expect("it starts");
    let expected = "0 0 0 0\n3\n\
        changed\tNOTES\t121\t190\t190\ttext\tDo not move connectors!\tGe\u{e4}ndert\u{2192}\n\
        second\tPLACEMENT\t131\t0\t215\tp\t? 1\tR1\n\
        second\tPLACEMENT\t132\t0\t216\t0.00000\t0.00000\t0.00000\t0.00000\tTOP\tPLACED\n";
    let printed: Vec<u8> =
        output.stdout.iter().map(|&byte| if byte == 0xfc { b'?' } else { byte }).collect();
    assert_eq!((text(&printed).as_str(), output.status.code()), (expected, Some(1)));
}

/// The JSON that a line of words prints, and how it ends.
fn read(line: &str) -> (Value, i32) {
    let (words, code) = said(line);
    (serde_json::from_str(&words).expect("JSON"), code)
}

#[test]
fn as_json() {
    let expected = json!({
        "files": [MAIN, "shelf/boards/main_rev_b.emn"],
        "verdict": { "number": 0, "line": 0, "count": 0, "which": 0 },
        "refusal": null,
        "same": false,
        "differences": 1,
        "cut": false,
        "list": [{
            "how": "changed",
            "section": "PLACEMENT",
            "heading": "PLACEMENT",
            "kind": 132,
            "record": "J1",
            "lines": [204, 204],
            "field": "x",
            "values": ["1800.00000", "1850.00000"],
        }],
    });
    let line = format!("diff --json {MAIN} shelf/boards/main_rev_b.emn");
    assert_eq!(read(&line), (expected, 1));
    let (value, _) = read(&format!("diff --json --limit 2 {MAIN} shelf/boards/plate.emn"));
    assert_eq!((&value["differences"], &value["cut"]), (&246.into(), &true.into()));
    assert_eq!(value["list"].as_array().map(Vec::len), Some(2));
}

#[test]
fn a_record_of_one_file_as_json() {
    let libraries = "shelf/libraries/connectors.emp shelf/libraries/hardware.emp";
    let (value, _) = read(&format!("diff --json --limit 8 {libraries}"));
    assert_eq!((&value["differences"], &value["cut"]), (&8.into(), &false.into()));
    let expected = json!({
        "how": "second",
        "section": "MECHANICAL",
        "heading": "MECHANICAL screw_m3 pn-m3x8",
        "kind": 151,
        "record": "screw_m3 pn-m3x8",
        "lines": [null, 5],
        "fields": [
            { "field": "geometry", "value": "screw_m3" },
            { "field": "part", "value": "pn-m3x8" },
            { "field": "unit", "value": "MM" },
            { "field": "height", "value": "8.00000" },
        ],
    });
    assert_eq!(value["list"][4], expected);
}

#[test]
fn as_json_without_differences() {
    let (value, code) = read(&format!("diff --json {MAIN} shelf/boards/main_respaced.emn"));
    assert_eq!((&value["same"], &value["list"], code), (&true.into(), &json!([]), 0));
    let (value, code) = read(&format!("diff --json {MAIN} shelf/boards/main_torn.emn"));
    assert_eq!((&value["same"], &value["list"], code), (&false.into(), &json!([]), 1));
    assert_eq!(value["verdict"], json!({ "number": 6, "line": 120, "count": 0, "which": 2 }));
    assert_eq!(value["refusal"], "6 number of fields: the line has too few fields or too many");
}

#[test]
fn a_wrong_command_line_ends_with_2() {
    for line in ["diff", "diff x", "diff --limit -1 x y", "diff --plain --json x y", "diff x y"] {
        assert_eq!(said(line), (String::new(), 2), "{line}");
    }
    let (words, _) = said("diff --help");
    assert!(words.contains("proved comparison") && words.contains("own work"), "{words}");
}

#[test]
fn large_files_that_have_little_in_common() {
    let folder = folder("large files");
    let paths = ["a", "b"].map(|name| folder.join(name));
    for (path, seed) in paths.iter().zip(1..) {
        let board = generate::board(&mut Random::new(seed), 1 << 20);
        fs::write(path, board).expect("a file");
    }
    let [first, second] = paths.each_ref().map(|path| path.as_os_str());
    let options = ["diff", "--plain", "--limit", "0"].map(OsStr::new);
    let output = run(&[&options[..], &[first, second]].concat());
    let mut lines = output.stdout.split(|&byte| byte == b'\n').skip(1);
    let count = lines.next().map(text).and_then(|count| count.parse().ok());
    assert!(output.stdout.ends_with(b"\n"));
    assert_eq!(count, Some(lines.count() - 1));
    assert_eq!(output.status.code(), Some(1));
}
