//! The proved library on the cases of the second reader's list; the README beside the list says how
//! a line is made.

#[path = "../../second/tests/columns/mod.rs"]
mod columns;

use columns::{bytes, column, edit};
use quayladle::{canon, check, judge, rows, same, write, Reader, Reply, Verdict};

/// Bytes lent to the writer where a case does not say how many.
const ROOM: usize = 1 << 16;
/// What lent bytes are filled with, to see that nothing else is written.
const MARK: u8 = 0xA5;

#[test]
fn every_case() {
    let cases = include_str!("../../second/tests/cases.txt").lines();
    let answers: Vec<Option<String>> = cases.map(difference).collect();
    let wrong: Vec<&String> = answers.iter().flatten().collect();
    assert!(wrong.is_empty(), "{} of {} differ: {wrong:#?}", wrong.len(), answers.len());
    assert!(answers.len() >= 1_200, "cases are missing");
}

/// What is wrong with a case, if something is.
fn difference(case: &str) -> Option<String> {
    let columns: Vec<&str> = case.split('\t').collect();
    let (name, came, expected) = match columns[..] {
        [name, "check", file, reply] => (name, plain(check(&bytes(file))), reply),
        [name, "row", number, file, row] => (name, row_of(&bytes(file), number), row),
        [name, "write", edits, file, reply] => (name, written(&bytes(file), edits), reply),
        [name, "canon", file, text] => (name, column(&canon(&bytes(file)).unwrap()), text),
        [name, "same", a, b, reply] => (name, with_which(same(&bytes(a), &bytes(b))), reply),
        [name, "judge", a, b, reply] => (name, with_which(judge(&bytes(a), &bytes(b))), reply),
        [name, "reader", room, file, replies] => {
            (name, calls(&bytes(file), room, replies), replies)
        }
        _ => panic!("not a case: {case}"),
    };
    (came != expected).then(|| format!("{name}: came {came}, expected {expected}"))
}

fn plain(reply: Reply) -> String {
    format!("{},{},{}", reply.number, reply.line, reply.count)
}

fn with_which(verdict: Verdict) -> String {
    format!("{},{}", plain(verdict.reply), verdict.which)
}

fn row_of(file: &[u8], number: &str) -> String {
    let place = number.parse::<usize>().expect("a row's number") - 1;
    let list = rows(file).expect("an accepted file");
    list[place].map(|column| column.to_string()).join(",")
}

/// Writes the rows of a file after some edits, and sees that only the text is written.
fn written(file: &[u8], edits: &str) -> String {
    let mut list = rows(file).expect("an accepted file");
    let room = edit(&mut list, edits).unwrap_or(ROOM);
    let mut out = vec![MARK; room];
    let reply = write(&list.concat(), file, &mut out);
    let used = if reply.number == 0 { reply.count as usize } else { 0 };
    assert!(out[used..].iter().all(|&byte| byte == MARK), "written past the text");
    plain(reply)
}

/// As many replies of the line reader as are expected.
fn calls(file: &[u8], room: &str, replies: &str) -> String {
    let mut lent = vec![0; room.parse().expect("a room")];
    let mut reader = Reader::open(file);
    let came: Vec<String> = replies.split(' ').map(|_| plain(reader.next(&mut lent))).collect();
    came.join(" ")
}
