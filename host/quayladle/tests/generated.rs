//! The proved library against the second reader on generated files, whole and damaged.

mod common;

use common::{agreed, agreed_on_both, agreed_on_rows};
use generate::{changed, damaged, file, lettered, lines, matched, Random};
use quayladle::{LINE, STRIDE, WIDTH};

const FILES: u64 = 20_000;
const PAIRS: u64 = 4_000;

#[test]
fn one_file() {
    let mut seen = [0; 14];
    for seed in 0..FILES {
        let reply = agreed(seed, &file(seed));
        seen[reply.number as usize] += 1;
    }
    println!("{FILES} files, replies by number: {seen:?}");
    assert!(seen[0] > 0 && seen[3..].iter().all(|&count| count > 0), "{seen:?}");
}

#[test]
fn two_files() {
    let (mut same, mut judged) = ([0; 2], [0; 18]);
    for seed in 0..PAIRS {
        let (first, second) = pair(seed);
        let verdicts = agreed_on_both(seed, &first, &second);
        if verdicts[0].reply.number == 0 {
            same[verdicts[0].reply.count as usize] += 1;
        }
        judged[verdicts[1].reply.number as usize] += 1;
    }
    println!("{PAIRS} pairs, different and same: {same:?}, judged by number: {judged:?}");
    assert!(same.iter().all(|&count| count > 0), "{same:?}");
    assert!([0, 16, 17].iter().all(|&number| judged[number] > 0), "{judged:?}");
}

#[test]
fn changed_rows() {
    let mut seen = [0; 16];
    for seed in (0..FILES).step_by(2) {
        let mut random = Random::new(seed);
        let file = file(seed);
        let mut rows = quayladle::rows(&file).expect("a whole file").concat();
        let place = random.below(rows.len());
        rows[place] = changed(&mut random, rows[place]);
        let reply = agreed_on_rows(seed, &rows, &file);
        seen[reply.number as usize] += 1;
    }
    println!("{} lists of rows, replies by number: {seen:?}", FILES / 2);
    assert!(seen[0] > 0 && seen[15] > 0, "{seen:?}");
}

#[test]
fn rows_on_other_lines() {
    let mut seen = [0; 16];
    for seed in (0..FILES).step_by(2) {
        let file = file(seed);
        let mut rows = quayladle::rows(&file).expect("a whole file");
        let lines = lines(&mut Random::new(seed), rows.len());
        for (row, &line) in rows.iter_mut().zip(&lines) {
            row[LINE] = line;
        }
        let rise = lines[0] >= 1 && lines.windows(2).all(|pair| pair[0] < pair[1]);
        let reply = agreed_on_rows(seed, &rows.concat(), &file);
        assert_eq!(reply.number, if rise { 0 } else { 15 }, "{seed}");
        seen[reply.number as usize] += 1;
    }
    println!("{} lists of rows, replies by number: {seen:?}", FILES / 2);
    assert!(seen[0] > 1000 && seen[15] > 1000, "{seen:?}");
}

#[test]
fn the_line_of_a_row_is_where_its_texts_stand() {
    let mut texts = 0;
    for seed in (0..FILES).step_by(2) {
        let file = file(seed);
        for row in quayladle::rows(&file).expect("a whole file") {
            let starts =
                (1..WIDTH).filter(|&column| quayladle::text(&row, column, &file).is_some());
            for start in starts.map(|column| row[column] as usize) {
                let ends = file[..start].iter().filter(|&&byte| byte == b'\n').count();
                assert_eq!(row[LINE], ends as i64 + 1, "{seed}");
                texts += 1;
            }
        }
    }
    assert!(texts > 100_000, "{texts}");
}

#[test]
fn canonical_text_has_a_row_on_each_line() {
    for seed in (0..FILES).step_by(2) {
        let text = quayladle::canon(&file(seed)).expect("a whole file");
        let rows = quayladle::rows(&text).expect("canonical text");
        assert!(rows.iter().map(|row| row[LINE]).eq(1..=rows.len() as i64), "{seed}");
    }
}

#[test]
fn letters_of_words_and_names() {
    for seed in 0..PAIRS {
        let [capitals, small, mixed] = lettered(&mut Random::new(seed), 600);
        for other in [&small, &mixed] {
            let [verdict, _] = agreed_on_both(seed, &capitals, other);
            assert_eq!((verdict.reply.number, verdict.reply.count), (0, 1), "{seed}");
        }
        agreed(seed, &mixed);
    }
}

/// Names, and what looks like one, as rows over other bytes may point at them.
const NAMES: [&[u8]; 8] =
    [b"NOREFDES", b"norefdes", b"BOARD", b"Board", b"board", b"panel", b"PANEL", b"norefde"];

#[test]
fn rows_that_point_at_names() {
    let mut seen = [0; 16];
    for seed in (0..FILES / 20).step_by(2) {
        let file = file(seed);
        let rows = quayladle::rows(&file).expect("a whole file").concat();
        for place in starts_of_names(&rows) {
            for name in NAMES {
                let mut rows = rows.clone();
                (rows[place], rows[place + 1]) = (file.len() as i64, name.len() as i64);
                let reply = agreed_on_rows(seed, &rows, &[&file[..], name].concat());
                seen[reply.number as usize] += 1;
            }
        }
    }
    println!("names in rows, replies by number: {seen:?}");
    assert!(seen[0] > 1000 && seen[15] > 100, "{seen:?}");
}

/// Where in the numbers of rows references, holes' parts and holes' types start.
fn starts_of_names(rows: &[i64]) -> Vec<usize> {
    let columns = |kind| match kind {
        111 => &[5, 7][..],
        131 => &[5],
        _ => &[],
    };
    let kinds = rows.iter().enumerate().step_by(STRIDE);
    kinds.flat_map(|(at, &kind)| columns(kind).iter().map(move |column| at + column)).collect()
}

#[test]
fn texts_as_they_are_meant_are_those_of_canonical_text() {
    let mut texts = 0;
    for seed in (0..FILES).step_by(2) {
        let file = file(seed);
        let canonical = quayladle::canon(&file).expect("a whole file");
        let lists = [&file, &canonical].map(|bytes| quayladle::rows(bytes).expect("rows"));
        for (row, other) in lists[0].iter().zip(&lists[1]) {
            for column in 1..WIDTH {
                let meant = quayladle::text(row, column, &file);
                assert_eq!(meant, quayladle::text(other, column, &canonical), "{seed}");
                if let Some(meant) = meant {
                    let start = other[column] as usize;
                    assert_eq!(meant, &canonical[start..start + meant.len()], "{seed}");
                    texts += 1;
                }
            }
        }
    }
    assert!(texts > 100_000, "{texts}");
}

/// Two files by their number: a board and its library, or a file and its canonical text; in half of
/// the cases one of them is damaged.
fn pair(seed: u64) -> (Vec<u8>, Vec<u8>) {
    let mut random = Random::new(seed);
    let (first, second) = match seed % 3 {
        0 => matched(&mut random, 900),
        _ => {
            let whole = file(2 * seed);
            let text = second::canon(&whole).expect("a whole file");
            (whole, text)
        }
    };
    match random.below(4) {
        0 => (damaged(&mut random, &first), second),
        1 => (first, damaged(&mut random, &second)),
        _ => (first, second),
    }
}
