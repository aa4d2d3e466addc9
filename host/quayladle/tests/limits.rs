//! Sizes and lent slices at their limits.

use quayladle::{
    canon, check, judge, read, rows, same, write, Reply, Verdict, LARGEST_FILE, LINE, STRIDE,
};

const LIBRARY: &[u8] = b".HEADER\nLIBRARY_FILE 3.0 s 2024/05/06.07:08:09 1\n.END_HEADER\n";
const ROWS: [i64; 33] = [
    10, 0, 0, 0, 0, 0, 0, 0, 0, 0, 1, // .HEADER
    11, 2, 300_000, 25, 1, 27, 19, 1, 0, 0, 2, // LIBRARY_FILE
    19, 0, 0, 0, 0, 0, 0, 0, 0, 0, 3, // .END_HEADER
];

const fn reply(number: u64, line: u64, count: u64) -> Reply {
    Reply { number, line, count }
}

/// A library followed by a comment, of the size asked for.
fn padded(size: usize) -> Vec<u8> {
    let mut file = [LIBRARY, b"#"].concat();
    file.resize(size, b'x');
    file
}

#[test]
fn a_slice_that_holds_too_few_rows_stays_as_it_was() {
    for length in [0, 10, 11, 12, 21, 22, 30, 32] {
        let mut lent = vec![-1; length];
        assert_eq!(read(LIBRARY, &mut lent), reply(2, 0, 3), "{length}");
        assert_eq!(lent, vec![-1; length]);
    }
}

#[test]
fn numbers_behind_the_last_row_stay_as_they_were() {
    for length in [33, 34, 43, 44, 45] {
        let mut lent = vec![-1; length];
        assert_eq!(read(LIBRARY, &mut lent), reply(0, 0, 3), "{length}");
        assert_eq!((&lent[..33], &lent[33..]), (&ROWS[..], &vec![-1; length - 33][..]));
    }
}

#[test]
fn a_refused_file_writes_nothing() {
    let mut lent = [-1; 11];
    assert_eq!(read(b"\t", &mut lent), reply(3, 1, 0));
    assert_eq!(read(b"", &mut lent), reply(13, 1, 0));
    assert_eq!(lent, [-1; 11]);
    assert!(rows(b"").is_err());
}

#[test]
fn a_buffer_that_is_too_short_stays_as_it_was() {
    for length in [0, 1, 60] {
        let mut lent = vec![b'?'; length];
        assert_eq!(write(&ROWS, LIBRARY, &mut lent), reply(14, 0, 61), "{length}");
        assert_eq!(lent, vec![b'?'; length]);
    }
    let mut lent = [b'?'; 62];
    assert_eq!(write(&ROWS, LIBRARY, &mut lent), reply(0, 0, 61));
    assert_eq!((&lent[..61], lent[61]), (LIBRARY, b'?'));
}

#[test]
fn whole_rows_alone_are_written() {
    let mut lent = [b'?'; 61];
    let more = [&ROWS[..], &[5; 10]].concat();
    for length in [0, 10, 11, 12, 22, 30, 32] {
        assert_eq!(write(&ROWS[..length], LIBRARY, &mut lent), reply(15, 0, 0), "{length}");
        assert_eq!(lent, [b'?'; 61]);
    }
    assert_eq!(write(&more, LIBRARY, &mut lent), reply(0, 0, 61));
    assert_eq!(lent, LIBRARY);
    assert_eq!(
        write(&ROWS, &LIBRARY[..45], &mut lent),
        reply(15, 0, 0),
        "the date is not all there"
    );
}

#[test]
fn a_file_of_the_largest_size_is_judged() {
    let file = padded(LARGEST_FILE);
    assert_eq!(check(&file), reply(0, 0, 3));
    assert_eq!(canon(&file).as_deref(), Ok(LIBRARY));
    assert_eq!(same(&file, LIBRARY), Verdict { reply: reply(0, 0, 1), which: 0 });
}

#[test]
fn files_of_short_and_of_long_lines_have_their_rows_and_text() {
    let points = "0 1 0 0\n0 0 0 0\n".repeat(100);
    let value = "x".repeat(10_000);
    for part in [
        format!(".MECHANICAL\ng p MM 1\n0 0 0 0\n{points}.END_MECHANICAL\n"),
        format!(".ELECTRICAL\ng p MM 1\n0 0 0 0\n0 1 0 360\nPROP a {value}\n.END_ELECTRICAL\n"),
    ] {
        let file = [LIBRARY, part.as_bytes()].concat();
        assert_eq!(rows(&file).ok(), second::rows(&file).ok());
        assert_eq!(canon(&file).ok(), second::canon(&file).ok());
        assert!(canon(&file).is_ok());
    }
}

#[test]
fn a_text_over_the_limit_is_refused() {
    let long = "x".repeat(1 << 16);
    let part =
        format!(".ELECTRICAL\ng p MM 1\n0 0 0 0\n0 1 0 360\nPROP a {long}\n.END_ELECTRICAL\n");
    let file = [LIBRARY, part.as_bytes()].concat();
    let rows = rows(&file).expect("a library");
    let prop = rows.iter().position(|row| row[0] == 143).expect("its property");
    // The same property again and again: 256 of them are more than the limit, 255 are not.
    for (times, number) in [(255, 14), (256, 1)] {
        let mut list = [&rows[..prop], &vec![rows[prop]; times], &rows[prop + 1..]].concat();
        assert_eq!(write(&list.concat(), &file, &mut []).number, 15, "on one line");
        for (row, line) in list.iter_mut().zip(1..) {
            row[LINE] = line;
        }
        assert_eq!(write(&list.concat(), &file, &mut []).number, number, "{times}");
    }
}

#[test]
fn lines_rise_from_1_or_more_to_any_number() {
    let edges = [i64::MIN, i64::MIN + 1, -1, 0, 1, 2, 3, 1 << 32, i64::MAX - 1, i64::MAX];
    for lines in edges.map(|a| edges.map(|b| edges.map(|c| [a, b, c]))).concat().concat() {
        let mut list = ROWS;
        for (row, line) in lines.into_iter().enumerate() {
            list[row * STRIDE + LINE] = line;
        }
        let rise = 1 <= lines[0] && lines[0] < lines[1] && lines[1] < lines[2];
        let mut lent = [b'?'; 61];
        let answer = if rise { reply(0, 0, 61) } else { reply(15, 0, 0) };
        assert_eq!(write(&list, LIBRARY, &mut lent), answer, "{lines:?}");
        assert_eq!(lent, if rise { LIBRARY } else { &[b'?'; 61] }, "{lines:?}");
    }
}

#[test]
fn lines_are_counted_in_a_file_of_the_largest_size() {
    let before = LARGEST_FILE - LIBRARY.len();
    let file = [&vec![b'\n'; before], LIBRARY].concat();
    let list = rows(&file).expect("a library");
    let lines = [1, 2, 3].map(|line| before as i64 + line);
    assert_eq!(list.iter().map(|row| row[LINE]).collect::<Vec<_>>(), lines);
    assert_eq!(canon(&file).as_deref(), Ok(LIBRARY));
}

#[test]
fn a_larger_file_is_refused() {
    let file = padded(LARGEST_FILE + 1);
    let mut lent = [-1; 44];
    assert_eq!(check(&file), reply(1, 0, 0));
    assert_eq!(read(&file, &mut lent), reply(1, 0, 0));
    assert_eq!(lent, [-1; 44]);
    assert_eq!(same(LIBRARY, &file), Verdict { reply: reply(1, 0, 0), which: 2 });
    assert_eq!(judge(&file, LIBRARY), Verdict { reply: reply(1, 0, 0), which: 1 });
}
