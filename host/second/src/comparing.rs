//! Comparing: whether two files have the same meaning.

use crate::kinds::Kind;
use crate::reading;
use crate::reply::Reply;
use crate::rows::{text, Row};

/// Whether two accepted files mean the same, as a count of 1 or 0, and which file was refused.
pub fn same(a: &[u8], b: &[u8]) -> (Reply, u64) {
    let first = match reading::rows(a) {
        Ok(rows) => rows,
        Err(reply) => return (reply, 1),
    };
    let second = match reading::rows(b) {
        Ok(rows) => rows,
        Err(reply) => return (reply, 2),
    };
    let mut pairs = first.iter().zip(&second);
    let equal = first.len() == second.len() && pairs.all(|(p, q)| mean_the_same((p, a), (q, b)));
    (Reply::done(u64::from(equal)), 0)
}

/// Whether the records of two rows agree, with what each text means in place of its start and length.
fn mean_the_same((p, a): (&Row, &[u8]), (q, b): (&Row, &[u8])) -> bool {
    if p[0] != q[0] {
        return false;
    }
    let mut column = 1;
    let layout = Kind::of_number(p[0]).map_or(&[][..], Kind::layout);
    layout.iter().all(|wanted| {
        let at = column;
        column += wanted.columns();
        match wanted.columns() {
            2 => wanted.meant(text(p, at, a)) == wanted.meant(text(q, at, b)),
            _ => p[at] == q[at],
        }
    })
}
