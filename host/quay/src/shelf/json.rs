//! A shelf as JSON.

use std::io::{self, Write};

use serde_json::{json, Value};

use super::{Filed, Group, Shelf};
use crate::json::{reply_value, verdict_value};

pub fn print(shelf: &Shelf, out: &mut impl Write) -> io::Result<()> {
    serde_json::to_writer_pretty(&mut *out, &value(shelf))?;
    writeln!(out)
}

fn value(shelf: &Shelf) -> Value {
    let groups: Vec<Value> = shelf.groups.iter().map(|group| group_value(shelf, group)).collect();
    let unreadable = shelf.unreadable.iter().map(|it| json!({ "name": it.name, "why": it.why }));
    json!({
        "folder": shelf.folder,
        "totals": {
            "files": shelf.files.len(),
            "bytes": shelf.size(),
            "whole": shelf.whole(),
            "refused": shelf.files.len() - shelf.whole(),
            "unreadable": shelf.unreadable.len(),
            "passed_over": shelf.passed_over,
            "bytes_freed": shelf.freed(),
        },
        "files": shelf.files.iter().map(file_value).collect::<Vec<Value>>(),
        "same": groups,
        "unreadable": unreadable.collect::<Vec<Value>>(),
    })
}

fn file_value(file: &Filed) -> Value {
    json!({
        "name": file.name,
        "bytes": file.size,
        "sha256": file.sha256,
        "canonical_sha256": file.canonical,
        "reply": reply_value(file.reply),
        "refusal": file.refusal().map(|refusal| refusal.to_string()),
    })
}

fn group_value(shelf: &Shelf, group: &Group) -> Value {
    let first = &shelf.files[group.first];
    let others = group.others.iter().map(|member| {
        json!({
            "name": shelf.files[member.file].name,
            "exact_copy": shelf.is_copy(group, member),
            "same_as_first": verdict_value(member.verdict),
        })
    });
    json!({
        "canonical_sha256": first.canonical,
        "first": first.name,
        "others": others.collect::<Vec<Value>>(),
        "bytes_freed": shelf.freed_by(group),
    })
}
