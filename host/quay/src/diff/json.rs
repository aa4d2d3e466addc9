//! Differences as JSON.

use std::io::{self, Write};

use serde_json::{json, Value};

use super::{Compared, Difference};
use crate::json::verdict_value;
use crate::showing::printable;

/// One document, with a line for each difference: there may be millions, so they are not gathered before.
pub fn print(compared: &Compared, out: &mut impl Write) -> io::Result<()> {
    writeln!(out, "{{")?;
    for (name, value) in front(compared) {
        writeln!(out, "  \"{name}\": {value},")?;
    }
    write!(out, "  \"list\": [")?;
    for (place, difference) in compared.shown().enumerate() {
        let comma = if place == 0 { "" } else { "," };
        write!(out, "{comma}\n    {}", difference_value(&difference))?;
    }
    writeln!(out, "\n  ]\n}}")
}

fn front(compared: &Compared) -> [(&'static str, Value); 6] {
    let count = compared.steps.count;
    let done = compared.verdict.reply.done();
    [
        ("files", json!(compared.names())),
        ("verdict", verdict_value(compared.verdict)),
        ("refusal", json!(done.err().map(|refusal| refusal.to_string()))),
        ("same", json!(done == Ok(1))),
        ("differences", json!(count)),
        ("cut", json!(count > compared.limit)),
    ]
}

fn difference_value(difference: &Difference) -> Value {
    let at = difference.at();
    let kind = at.record().kind();
    let mut value = json!({
        "how": difference.word(),
        "section": kind.section(),
        "heading": at.heading(),
        "kind": kind.0,
        "record": at.label(),
        "lines": difference.lines(),
    });
    match difference {
        Difference::Changed { field, values, .. } => {
            value["field"] = field.name.into();
            value["values"] = values.iter().map(|value| printable(&value.bytes())).collect();
        }
        Difference::First(at) | Difference::Second(at) => {
            let fields = at.record().fields().map(
                |(field, value)| json!({ "field": field.name, "value": printable(&value.bytes()) }),
            );
            value["fields"] = fields.collect();
        }
    }
    value
}
