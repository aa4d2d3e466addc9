//! Runs every case of cases.txt, one line each; README.md beside it says how a line is made.

mod columns;

use columns::{bytes, column, edit};
use second::{canon, check, judge, rows, same, write, Reader, Reply};

/// Bytes lent to the writer where a case does not say how many.
const ROOM: usize = 1 << 16;
/// What lent slices are filled with, to see that nothing else is written.
const MARK: u8 = 0xA5;

#[test]
fn every_case() {
    let cases: Vec<&str> = include_str!("cases.txt").lines().collect();
    let wrong: Vec<String> = cases.iter().filter_map(|case| difference(case)).collect();
    assert!(wrong.is_empty(), "{} of {} differ:\n{}", wrong.len(), cases.len(), wrong.join("\n"));
    assert!(cases.len() >= 226, "cases are missing");
}

/// What is wrong with a case: its name, what came and what was expected.
fn difference(case: &str) -> Option<String> {
    let columns: Vec<&str> = case.split('\t').collect();
    let (name, came, expected) = match columns[..] {
        [name, "check", file, reply] => (name, plain(check(&bytes(file))), reply),
        [name, "row", number, file, row] => (name, row_of(&bytes(file), number), row),
        [name, "write", edits, file, reply] => (name, written(&bytes(file), edits), reply),
        [name, "canon", file, text] => (name, canonical(&bytes(file)), text),
        [name, "reader", room, file, replies] => {
            (name, viewed(&bytes(file), room, replies), replies)
        }
        [name, "same", a, b, reply] => (name, with_which(same(&bytes(a), &bytes(b))), reply),
        [name, "judge", a, b, reply] => (name, with_which(judge(&bytes(a), &bytes(b))), reply),
        _ => return Some(format!("not a case: {case}")),
    };
    (came != expected).then(|| format!("{name}: came {came}, expected {expected}"))
}

fn plain(reply: Reply) -> String {
    format!("{},{},{}", reply.number, reply.line, reply.count)
}

fn with_which((reply, which): (Reply, u64)) -> String {
    format!("{},{which}", plain(reply))
}

fn row_of(file: &[u8], number: &str) -> String {
    let place = number.parse::<usize>().expect("a row's number") - 1;
    match rows(file) {
        Ok(list) => list[place].map(|column| column.to_string()).join(","),
        Err(reply) => plain(reply),
    }
}

fn canonical(file: &[u8]) -> String {
    canon(file).map_or_else(plain, |text| column(&text))
}

/// Writes the rows of a file after some edits, and sees that only the text is written.
fn written(file: &[u8], edits: &str) -> String {
    let mut list = match rows(file) {
        Ok(list) => list,
        Err(reply) => return plain(reply),
    };
    let room = edit(&mut list, edits).unwrap_or(ROOM);
    let mut out = vec![MARK; room];
    let reply = write(&list.concat(), file, &mut out);
    let used = if reply.number == 0 { reply.count as usize } else { 0 };
    assert!(out[used..].iter().all(|&byte| byte == MARK), "written past the text");
    plain(reply)
}

/// As many replies of the viewer's reader as are expected.
fn viewed(file: &[u8], room: &str, replies: &str) -> String {
    let mut room = vec![-1; room.parse().expect("a room")];
    let mut reader = Reader::open(file);
    let calls = replies.split(' ').map(|_| plain(reader.next(&mut room)));
    calls.collect::<Vec<_>>().join(" ")
}
