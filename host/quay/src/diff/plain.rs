//! Differences in lines for programs.

use std::io::{self, Write};

use super::{Compared, Difference};
use crate::showing::plain_verdict;

/// The verdict, the number of differences, then a line for each. Its parts have a tab between, which no text of an accepted
/// file holds.
pub fn print(compared: &Compared, out: &mut impl Write) -> io::Result<()> {
    writeln!(out, "{}\n{}", plain_verdict(compared.verdict), compared.steps.count)?;
    for difference in compared.shown() {
        let mut line = parts(&difference).join(&b'\t');
        line.push(b'\n');
        out.write_all(&line)?;
    }
    Ok(())
}

fn parts(difference: &Difference) -> Vec<Vec<u8>> {
    let kind = difference.at().record().kind();
    let [first, second] = difference.lines().map(|line| line.unwrap_or_default().to_string());
    let word = difference.word().to_string();
    let front = [word, kind.section().to_string(), kind.0.to_string(), first, second];
    let mut parts = front.map(String::into_bytes).to_vec();
    match difference {
        Difference::Changed { field, values, .. } => {
            parts.push(field.name.as_bytes().to_vec());
            parts.extend(values.iter().map(|value| value.bytes()));
        }
        Difference::First(at) | Difference::Second(at) => {
            parts.extend(at.record().values().map(|value| value.bytes()));
        }
    }
    parts
}
