//! The second reader's answers in the wrapper's types, and what both readers are asked.

use std::fmt::Display;

use quayladle::{canon, check, judge, read, same, write, Reader, Reply, Verdict, STRIDE};

/// What lent numbers are filled with, to see that nothing else is written.
pub const MARK: i64 = -0x5A5A_5A5A;

pub fn reply(reply: second::Reply) -> Reply {
    Reply { number: reply.number, line: reply.line, count: reply.count }
}

pub fn verdict((answer, which): (second::Reply, u64)) -> Verdict {
    Verdict { reply: reply(answer), which }
}

/// Asks both readers about one file, with some room for rows and with too little, and about its
/// canonical text if it has one, and gives the reply on which they agree.
pub fn agreed(name: impl Display, file: &[u8]) -> Reply {
    let answer = check(file);
    assert_eq!(answer, reply(second::check(file)), "{name}: check");
    let needed = STRIDE * answer.count as usize;
    for room in [needed + STRIDE - 1, needed.saturating_sub(1)] {
        let (mut lent, mut other) = (vec![MARK; room], vec![MARK; room]);
        let answers = (read(file, &mut lent), reply(second::read(file, &mut other)));
        assert_eq!(answers.0, answers.1, "{name}: read into {room}");
        assert_eq!(lent, other, "{name}: rows in {room}");
    }
    let (text, other) = (canon(file), second::canon(file));
    assert_eq!(text.map_err(Reply::from), other.map_err(reply), "{name}: canon");
    agreed_on_lines(name, file);
    answer
}

/// Asks both line readers about every line, with room for six fields and, where that is too little, for all.
fn agreed_on_lines(name: impl Display, file: &[u8]) {
    let mut readers = (Reader::open(file), second::Reader::open(file));
    let mut room = 12;
    loop {
        let (mut lent, mut other) = (vec![MARK; room], vec![MARK; room]);
        let answers = (readers.0.next(&mut lent), reply(readers.1.next(&mut other)));
        assert_eq!(answers.0, answers.1, "{name}: line {}", readers.0.line());
        assert_eq!(lent, other, "{name}: places before line {}", readers.0.line());
        match answers.0.number {
            1 | 13 => return,
            2 => room = 2 * answers.0.count as usize,
            _ => room = 12,
        }
    }
}

/// Asks both writers about rows over some bytes, with some room for the text and with too little,
/// and gives the reply on which they agree.
pub fn agreed_on_rows(name: impl Display, rows: &[i64], text: &[u8]) -> Reply {
    let needed = write(rows, text, &mut []).count as usize;
    let replies = [needed.saturating_sub(1), needed + 3].map(|room| {
        let (mut lent, mut other) = (vec![b'?'; room], vec![b'?'; room]);
        let answers = (write(rows, text, &mut lent), reply(second::write(rows, text, &mut other)));
        assert_eq!(answers.0, answers.1, "{name}: write into {room}");
        assert_eq!(lent, other, "{name}: text in {room}");
        answers.0
    });
    replies[1]
}

/// Asks both readers about two files, and gives the verdicts on which they agree.
pub fn agreed_on_both(name: impl Display, first: &[u8], second: &[u8]) -> [Verdict; 2] {
    let answers = [same(first, second), judge(first, second)];
    assert_eq!(answers[0], verdict(second::same(first, second)), "{name}: same");
    assert_eq!(answers[1], verdict(second::judge(first, second)), "{name}: judge");
    answers
}
