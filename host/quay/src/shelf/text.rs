//! A shelf in words.

use std::io::{self, Write};

use super::{Group, Shelf};
use crate::showing::{counted, refused};

pub fn print(shelf: &Shelf, out: &mut impl Write) -> io::Result<()> {
    print_totals(shelf, out)?;
    if shelf.refused().next().is_some() {
        writeln!(out, "\nRefused:")?;
        for (file, refusal) in shelf.refused() {
            writeln!(out, "  {}", refused(&file.name, refusal))?;
        }
    }
    if !shelf.groups.is_empty() {
        writeln!(out, "\nThe same, record by record:")?;
        for group in &shelf.groups {
            print_group(shelf, group, out)?;
        }
        let freed = counted(shelf.freed(), "byte");
        writeln!(out, "\nKeeping the first of each would free {freed}. Nothing was deleted.")?;
    }
    Ok(())
}

fn print_totals(shelf: &Shelf, out: &mut impl Write) -> io::Result<()> {
    let (files, size) = (shelf.files.len(), shelf.size());
    let names = [counted(files as u64, "IDF file"), counted(size, "byte")].join(", ");
    writeln!(out, "{}: {names}", shelf.folder)?;
    writeln!(out, "  {:>6} whole", shelf.whole())?;
    writeln!(out, "  {:>6} refused", files - shelf.whole())?;
    let others =
        [(shelf.unreadable.len(), "not readable"), (shelf.passed_over, "passed over by name")];
    for (count, words) in others.into_iter().filter(|&(count, _)| count > 0) {
        writeln!(out, "  {count:>6} {words}")?;
    }
    Ok(())
}

/// The first file of a group, and below it how each other one differs from it.
fn print_group(shelf: &Shelf, group: &Group, out: &mut impl Write) -> io::Result<()> {
    let first = &shelf.files[group.first];
    writeln!(out, "  {}: {}", first.name, counted(first.reply.count, "record"))?;
    for member in &group.others {
        let file = &shelf.files[member.file];
        let how = match shelf.is_copy(group, member) {
            true => "an exact copy",
            false => "other bytes, the same records",
        };
        writeln!(out, "    {}: {how}, {}", file.name, counted(file.size, "byte"))?;
    }
    Ok(())
}
