//! `quay`, the command over the proved library: `quay help` says what it does.

mod arguments;
mod commands;
mod diff;
mod ending;
mod fields;
mod input;
mod json;
mod shelf;
mod showing;

use std::io::{self, BufWriter, Write};
use std::process::ExitCode;

use clap::Parser;

use arguments::{Arguments, Command};
use diff::Form;
use ending::{Ending, Failure};

fn main() -> ExitCode {
    let Arguments { command } = Arguments::parse();
    let mut out = BufWriter::new(io::stdout().lock());
    let ended = run(command, &mut out).and_then(|ending| {
        out.flush()?;
        Ok(ending)
    });
    match ended {
        Ok(ending) => ending.into(),
        Err(failure) if failure.is_broken_pipe() => ExitCode::SUCCESS,
        Err(failure) => {
            ending::tell(&failure);
            Ending::Failed.into()
        }
    }
}

fn run(command: Command, out: &mut impl Write) -> Result<Ending, Failure> {
    match command {
        Command::Check { plain, files } => commands::check(&files, plain, out),
        Command::Canon { plain, file } => commands::canon(&file, plain, out),
        Command::Rows { plain, file } => commands::rows(&file, plain, out),
        Command::Write { rows, text } => commands::write(&rows, &text, out),
        Command::Fields { plain, file } => fields::command(&file, plain, out),
        Command::Same { plain, first, second } => commands::same([&first, &second], plain, out),
        Command::Diff { plain, json, limit, first, second } => {
            let form = match (plain, json) {
                (true, _) => Form::Plain,
                (_, true) => Form::Json,
                _ => Form::Text,
            };
            diff::command([&first, &second], limit, form, out)
        }
        Command::Judge { plain, board, library } => commands::judge([&board, &library], plain, out),
        Command::Shelf { folder, all, json, report } => {
            shelf::command(&folder, all, json, report.as_deref(), out)
        }
    }
}
