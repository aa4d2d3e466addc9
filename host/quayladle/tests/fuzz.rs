//! Raw bytes and raw rows: inputs that grow from a few seeds by blind changes, where an input stays
//! as a parent if its reply is a new one. Both readers, and both writers, must agree on each.
//!
//! The number of inputs is fixed, and so is every one of them. `QUAYLADLE_FUZZ_INPUTS` asks for another
//! number, for a longer run by hand.

mod common;

use std::collections::BTreeSet;

use common::{agreed, agreed_on_both, agreed_on_rows};
use generate::{lines, Random};
use quayladle::{Reply, Row, LINE, STRIDE};

const INPUTS: usize = 20_000;
/// The longest input.
const LONGEST: usize = 2_000;

const PANEL: &[u8] = include_bytes!("../../../samples/panel_dated.emn");
const LIBRARY: &[u8] = include_bytes!("../../../samples/shelf/libraries/connectors.emp");

/// Pieces of files; blind changes alone would seldom make a keyword.
const PIECES: [&[u8]; 36] = [
    b"\n",
    b"\r",
    b"\r\n",
    b" ",
    b"\"",
    b"#",
    b".",
    b"-",
    b"0",
    b"360",
    b"-360",
    b"1.5",
    b"1.000001",
    b"\t",
    b"\x7F",
    b"\xFF",
    b".HEADER\n",
    b".END_",
    b"BOARD_FILE 3.0 s 2024/05/06.07:08:09 1\n",
    b"PANEL_FILE 3.0 s 2024/05/06.07:08:09 1\n",
    b"LIBRARY_FILE 3.0 s 2024/05/06.07:08:09 1\n",
    b"n MM\n",
    b".BOARD_OUTLINE MCAD\n1\n",
    b".PANEL_OUTLINE ECAD\n1\n",
    b".PLACEMENT\n",
    b".NOTES\n",
    b".ELECTRICAL\ng p MM 1\n",
    b".ELECTRICAL\ng p MM 1\n0 0 0 0\n0 1 0 360\n.END_ELECTRICAL\n",
    b"PROP a b\n",
    b"prop a b\n",
    b"library_file 3.0 s 2024/05/06.07:08:09 1\n",
    b".placement\na b norefdes\n0 0 0 0 top placed\n.end_placement\n",
    b" Board\n",
    b" mCAD\n",
    b"0 0 0 0\n0 1 0 360\n",
    b"0 0 0 0\n0 1 0 0\n0 0 0 0\n",
];

#[test]
fn raw_bytes() {
    let mut random = Random::new(1);
    let mut parents: Vec<Vec<u8>> = vec![Vec::new(), PANEL.to_vec(), LIBRARY.to_vec()];
    let (mut known, mut seen) = (BTreeSet::new(), [0; 14]);
    let inputs = inputs();
    for number in 0..inputs {
        let input = changed(&mut random, &parents);
        let reply = agreed(format_args!("input {number}: {}", input.escape_ascii()), &input);
        seen[reply.number as usize] += 1;
        if known.insert(mark(reply)) {
            parents.push(input);
        }
    }
    println!("{inputs} inputs, {} parents, replies by number: {seen:?}", parents.len());
    for pair in parents.windows(2) {
        agreed_on_both("two parents", &pair[0], &pair[1]);
    }
}

#[test]
fn raw_rows() {
    let mut random = Random::new(2);
    let rows = quayladle::rows(PANEL).expect("an accepted file");
    let (mut parents, mut known, mut seen) = (vec![rows], BTreeSet::new(), [0; 16]);
    let inputs = inputs() / 4;
    for number in 0..inputs {
        let mut rows = parents[random.below(parents.len())].clone();
        change_rows(&mut random, &mut rows);
        change_lines(&mut random, &mut rows);
        let reply = agreed_on_rows(format_args!("input {number}: {rows:?}"), &rows.concat(), PANEL);
        seen[reply.number as usize] += 1;
        if reply.number == 0 && known.insert(mark(reply)) {
            parents.push(rows);
        }
    }
    println!("{inputs} lists of rows, {} parents, replies by number: {seen:?}", parents.len());
}

/// Changes a number, or leaves a row out, repeats it or puts it elsewhere.
fn change_rows(random: &mut Random, rows: &mut Vec<Row>) {
    let (at, other) = (random.below(rows.len()), random.below(rows.len()));
    match random.below(8) {
        0 => drop(rows.remove(at)),
        1 => rows.insert(at, rows[other]),
        2 => rows.swap(at, other),
        3 => rows[at][random.below(STRIDE)] = random.any() as i64,
        _ => {
            let number = &mut rows[at][random.below(STRIDE)];
            *number = number.wrapping_add(random.pick(&[-1, 1, 10, 100_000, -100_000]));
        }
    }
}

/// Mostly puts lines that rise, so that rows in another order are not all refused for theirs.
fn change_lines(random: &mut Random, rows: &mut [Row]) {
    let lines = match random.below(4) {
        0 => return,
        1 => lines(random, rows.len()),
        _ => (1..=rows.len() as i64).collect(),
    };
    for (row, line) in rows.iter_mut().zip(lines) {
        row[LINE] = line;
    }
}

fn inputs() -> usize {
    let inputs = std::env::var("QUAYLADLE_FUZZ_INPUTS").ok();
    inputs.map_or(INPUTS, |number| number.parse().expect("a number of inputs"))
}

/// What makes a reply a new one.
fn mark(reply: Reply) -> [u64; 3] {
    [reply.number, reply.line, reply.count]
}

/// One of the parents with a few changes.
fn changed(random: &mut Random, parents: &[Vec<u8>]) -> Vec<u8> {
    // Late parents stand behind more lines that were good.
    let late = parents.len().saturating_sub(20);
    let from = if random.one_in(2) { late } else { 0 };
    let mut input = parents[from + random.below(parents.len() - from)].clone();
    for _ in 0..random.pick(&[1, 1, 2, 5]) {
        change(random, &mut input, parents);
    }
    input.truncate(LONGEST);
    input
}

fn change(random: &mut Random, input: &mut Vec<u8>, parents: &[Vec<u8>]) {
    let at = random.below(input.len() + 1);
    let end = (at + 1 + random.below(20)).min(input.len());
    match random.below(8) {
        0 => drop(input.drain(at..end)),
        1 => drop(input.splice(at..at, input[at..end].to_vec())),
        2 => input.insert(at, random.below(256) as u8),
        3 => input.truncate(at),
        4 => {
            let other = &parents[random.below(parents.len())];
            input.extend_from_slice(&other[random.below(other.len())..]);
        }
        5 => input.extend_from_slice(random.pick(&PIECES)),
        6 => drop(input.splice(at..end, random.pick(&PIECES).iter().copied())),
        _ => drop(input.splice(at..at, random.pick(&PIECES).iter().copied())),
    }
}
