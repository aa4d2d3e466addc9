//! The program that makes what other programs must print: the tree holds what it makes, and a case
//! that asks for another reply is told.

use std::fs::{self, File};
use std::io::Write;
use std::path::{Path, PathBuf};
use std::process::{Command, Output, Stdio};

/// Makes what a program must print on cases; under an emulator where the machine needs one.
fn made(program: &str, cases: impl Into<Stdio>) -> Output {
    let runner = std::env::var_os("QUAY_RUNNER");
    let mut words = runner.into_iter().chain([env!("CARGO_BIN_EXE_expected").into()]);
    let mut command = Command::new(words.next().expect("a program"));
    command.args(words).arg(program).stdin(cases).output().expect("the program starts")
}

#[test]
fn the_tree_holds_what_the_second_reader_makes() {
    let crates = Path::new(env!("CARGO_MANIFEST_DIR")).join("../../crates");
    for program in ["run_cases", "run_texts"] {
        let folder = crates.join(program);
        let output = made(program, File::open(folder.join("stdin")).expect("cases"));
        assert!(output.status.success(), "{program}: a case expects another reply");
        let held = fs::read(folder.join("stdout")).expect("what the program must print");
        assert!(output.stdout == held, "{program}/stdout is not what tools/expected writes");
    }
}

/// A file of this test's own that holds some cases.
fn written(cases: &[u8]) -> File {
    let place = PathBuf::from(env!("CARGO_TARGET_TMPDIR")).join("expected.stdin");
    File::create(&place).and_then(|mut file| file.write_all(cases)).expect("cases");
    File::open(place).expect("cases")
}

#[test]
fn a_case_that_expects_another_reply_is_flagged() {
    let header = format!("{:32}check{:6}{:6}{:3}{:6}{:5}\n", "empty", 0, 0, 13, 2, 0);
    let output = made("run_cases", written(&[header.as_bytes(), b"\n"].concat()));
    let words = "empty: came 13 1 0, expected 13 2 0 DIFFERS\n1 cases, 1 differ\n";
    assert_eq!((output.stdout, output.status.code()), (words.into(), Some(1)));
}

#[test]
fn a_program_that_is_not_known_is_refused() {
    assert_eq!(made("run_views", Stdio::null()).status.code(), Some(2));
}
