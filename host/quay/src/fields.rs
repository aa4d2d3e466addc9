//! The fields of a file's lines, one line at a time.

use std::io::Write;
use std::path::Path;

use quayladle::{Reader, Reason, Reply};

use crate::ending::{Ending, Failure};
use crate::input;
use crate::showing::{plain, printable, refused, shown};

/// The fields of each line with their places; a line that cannot be taken apart does not keep the others from being shown.
pub fn command(path: &Path, is_plain: bool, out: &mut impl Write) -> Result<Ending, Failure> {
    let file = input::bytes(path)?;
    let mut reader = Reader::open(&file);
    let mut lent = Vec::new();
    let mut ending = Ending::Accepted;
    loop {
        let line = reader.line();
        let reply = next(&mut reader, &mut lent);
        let places = &lent[..2 * handed_out(reply)];
        if is_plain {
            say_numbers(reply, places, out)?;
        } else {
            say_fields(line, places, &file, out)?;
        }
        match reply.done() {
            Ok(_) => {}
            Err(refusal) if refusal.reason == Reason::EndsEarly => return Ok(ending),
            Err(refusal) => {
                ending = Ending::Refused;
                if !is_plain {
                    writeln!(out, "{}", refused(&shown(path), refusal))?;
                }
                if refusal.reason == Reason::TooLarge {
                    return Ok(ending);
                }
            }
        }
    }
}

/// The next line, with as many numbers lent as it needs.
fn next(reader: &mut Reader, lent: &mut Vec<i64>) -> Reply {
    let reply = reader.next(lent);
    if reply.number != Reason::FewRows.number() {
        return reply;
    }
    lent.resize(2 * reply.count as usize, 0);
    reader.next(lent)
}

/// How many fields a call handed out.
fn handed_out(reply: Reply) -> usize {
    match reply.number {
        0 => reply.count as usize,
        _ => 0,
    }
}

/// A call as numbers: its reply, then start and length of each field.
fn say_numbers(reply: Reply, places: &[i64], out: &mut impl Write) -> Result<(), Failure> {
    write!(out, "{}", plain(reply))?;
    for place in places {
        write!(out, " {place}")?;
    }
    writeln!(out)?;
    Ok(())
}

/// Each field with its line, start and length: `3:61+5 BOARD`.
fn say_fields(line: u64, places: &[i64], file: &[u8], out: &mut impl Write) -> Result<(), Failure> {
    for place in places.chunks_exact(2) {
        let (start, length) = (place[0] as usize, place[1] as usize);
        writeln!(out, "{line}:{start}+{length} {}", printable(&file[start..start + length]))?;
    }
    Ok(())
}
