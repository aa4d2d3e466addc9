//! What a program that runs cases of rows must print, made by the second reader.
//!
//! `expected run_cases` and `expected run_texts` take that program's cases from standard input; the
//! head of its `main.rt` says how a case is made. A case that asks for another reply than the second
//! reader's is flagged as the program would flag it, and the exit code is then 1.

mod cases;
mod input;
mod sheet;
mod texts;

use std::io::{self, Read, Write};
use std::process::ExitCode;

use input::Input;
use sheet::Sheet;

fn main() -> ExitCode {
    let run = match std::env::args().nth(1).as_deref() {
        Some("run_cases") => cases::run,
        Some("run_texts") => texts::run,
        _ => {
            eprintln!("expected: say run_cases or run_texts");
            return ExitCode::from(2);
        }
    };
    let mut bytes = Vec::new();
    io::stdin().read_to_end(&mut bytes).expect("cases on standard input");
    let mut input = Input::of(&bytes);
    let mut sheet = Sheet::default();
    while input.holds_more() {
        run(&mut input, &mut sheet);
    }
    let (text, agreed) = sheet.whole();
    io::stdout().write_all(&text).expect("standard output");
    ExitCode::from(u8::from(!agreed))
}
