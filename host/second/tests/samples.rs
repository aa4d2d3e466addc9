//! The sample files of source document 001, with the replies that samples/NOTES.md lists.

use std::path::PathBuf;

use second::{canon, check, judge, same, Reply};

fn sample(name: &str) -> Vec<u8> {
    let folder: PathBuf = [env!("CARGO_MANIFEST_DIR"), "..", "..", "samples"].iter().collect();
    std::fs::read(folder.join(name)).expect("a sample file")
}

const fn reply(number: u64, line: u64, count: u64) -> Reply {
    Reply { number, line, count }
}

#[test]
fn replies_of_the_notes() {
    let wrong_date = reply(9, 2, 0);
    let table = [
        ("panel.emn", wrong_date),
        ("board.emn", wrong_date),
        ("library.emp", wrong_date),
        ("panel_dated.emn", reply(0, 0, 39)),
        ("board_dated.emn", reply(0, 0, 215)),
        ("library_dated.emp", reply(0, 0, 56)),
        ("library_dated_word.emp", reply(0, 0, 56)),
        ("shelf/boards/plate.emn", reply(0, 0, 35)),
        ("shelf/boards/plate_letters.emn", reply(0, 0, 35)),
    ];
    for (name, expected) in table {
        assert_eq!(check(&sample(name)), expected, "{name}");
    }
}

#[test]
fn judged_by_the_library() {
    let library = sample("library_dated_word.emp");
    assert_eq!(judge(&sample("board_dated.emn"), &library), (reply(0, 0, 11), 0));
    assert_eq!(judge(&sample("panel_dated.emn"), &library), (reply(0, 0, 2), 0));
}

#[test]
fn a_board_from_a_windows_seat_is_the_same() {
    let (board, windows) =
        (sample("shelf/boards/main.emn"), sample("shelf/boards/main_windows.emn"));
    let lines: Vec<&[u8]> = board.split(|&byte| byte == b'\n').collect();
    assert_eq!(windows, lines.join(&b"\r\n"[..]));
    assert_eq!(same(&board, &windows), (reply(0, 0, 1), 0));
    assert_eq!(canon(&board), canon(&windows));
}

#[test]
fn a_board_in_other_letters_is_the_same() {
    let (plate, letters) =
        (sample("shelf/boards/plate.emn"), sample("shelf/boards/plate_letters.emn"));
    assert!(plate != letters && plate.eq_ignore_ascii_case(&letters));
    assert_eq!(same(&plate, &letters), (reply(0, 0, 1), 0));
    assert_eq!(canon(&plate), canon(&letters));
    let screws_and_connector = sample("shelf/libraries/hardware.emp");
    assert_eq!(judge(&letters, &screws_and_connector), (reply(0, 0, 3), 0));
    let connector_alone = sample("shelf/libraries/connectors.emp");
    assert_eq!(judge(&letters, &connector_alone), (reply(16, 0, 1), 1));
}

#[test]
fn a_library_with_its_type_in_other_letters_is_the_same() {
    let (printed, put_right) = (sample("library_dated.emp"), sample("library_dated_word.emp"));
    assert_eq!(same(&printed, &put_right), (reply(0, 0, 1), 0));
}

#[test]
fn canonical_text_means_the_same() {
    for name in [
        "panel_dated.emn",
        "board_dated.emn",
        "library_dated_word.emp",
        "shelf/boards/plate_letters.emn",
    ] {
        let file = sample(name);
        let text = canon(&file).expect("an accepted file");
        assert_eq!(same(&file, &text), (reply(0, 0, 1), 0), "{name}");
        assert_eq!(canon(&text), Ok(text), "{name}");
    }
}
