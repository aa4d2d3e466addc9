//! Differences in words, under the names of their sections.

use std::io::{self, Write};
use std::iter;

use super::{Compared, Difference};
use crate::showing::counted;

pub fn print(compared: &Compared, out: &mut impl Write) -> io::Result<()> {
    let [first, second] = compared.names();
    let count = compared.steps.count;
    let differences = counted(count as u64, "difference");
    let cut = match count > compared.limit {
        true => format!("; below are the first {}, --limit 0 prints all", compared.limit),
        false => String::new(),
    };
    writeln!(out, "{first}, {second}: not the same, {differences}{cut}")?;
    let mut last = String::new();
    for difference in compared.shown() {
        let heading = difference.at().heading();
        if heading != last {
            writeln!(out, "\n{heading}")?;
        }
        writeln!(out, "  {}", line(&difference))?;
        last = heading;
    }
    Ok(())
}

/// A difference on one line: `main.emn:204 J1 x 1800.00000 → main_rev_b.emn:204 1850.00000`.
fn line(difference: &Difference) -> String {
    match difference {
        Difference::Changed { at: [first, second], field, values: [ours, theirs] } => {
            format!("{first} {} {} {ours} → {second} {theirs}", first.label(), field.name)
        }
        Difference::First(at) | Difference::Second(at) => {
            let fields = at.record().fields();
            let said = fields.map(|(field, value)| format!("{} {value}", field.name));
            let parts: Vec<String> = iter::once(at.noun()).chain(said).collect();
            format!("{at} only here: {}", parts.join(", "))
        }
    }
}
