//! The command and the samples, for tests.

use std::ffi::OsStr;
use std::fs;
use std::path::{Path, PathBuf};
use std::process::{Command, Output};

const SAMPLES: &str = concat!(env!("CARGO_MANIFEST_DIR"), "/../../samples");

/// The command, run in the folder of the samples; under an emulator where the machine needs one.
pub fn quay() -> Command {
    let runner = std::env::var_os("QUAY_RUNNER");
    let mut words = runner.into_iter().chain([env!("CARGO_BIN_EXE_quay").into()]);
    let mut command = Command::new(words.next().expect("a program"));
    command.args(words).current_dir(SAMPLES);
    command
}

pub fn run(arguments: &[impl AsRef<OsStr>]) -> Output {
    quay().args(arguments).output().expect("the command starts")
}

/// What a line of words prints and how it ends.
pub fn said(line: &str) -> (String, i32) {
    let output = run(&line.split(' ').collect::<Vec<_>>());
    (text(&output.stdout), output.status.code().expect("an exit code"))
}

pub fn sample(name: &str) -> Vec<u8> {
    fs::read(Path::new(SAMPLES).join(name)).expect("a sample")
}

pub fn text(bytes: &[u8]) -> String {
    String::from_utf8(bytes.to_vec()).expect("text")
}

/// A folder of this test's own, empty.
pub fn folder(name: &str) -> PathBuf {
    let folder = Path::new(env!("CARGO_TARGET_TMPDIR")).join(name);
    let _ = fs::remove_dir_all(&folder);
    fs::create_dir_all(&folder).expect("a folder");
    folder
}
