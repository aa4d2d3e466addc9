//! Sizes and lent slices: what needs large files, or a look at what is left in a slice.

use second::{canon, check, judge, read, rows, same, write, Reader, Reply, LINE, STRIDE};

const LARGEST_FILE: usize = 16_777_216;
const LIBRARY: &[u8] = b".HEADER\nLIBRARY_FILE 3.0 s 2024/05/06.07:08:09 1\n.END_HEADER\n";

const fn reply(number: u64, line: u64, count: u64) -> Reply {
    Reply { number, line, count }
}

/// A library followed by a comment, of the size asked for.
fn padded(size: usize) -> Vec<u8> {
    let mut file = [LIBRARY, b"#"].concat();
    file.resize(size, b'x');
    file
}

/// A library of one component with many points, each line of eight bytes.
fn many_points(size: usize) -> Vec<u8> {
    let mut file = [LIBRARY, b".ELECTRICAL\ng p MM 1\n0 0 0 0\n"].concat();
    while file.len() + 64 < size {
        file.extend_from_slice(b"0 1 0 0\n0 0 0 0\n");
    }
    file.extend_from_slice(b".END_ELECTRICAL\n");
    file
}

#[test]
fn a_file_of_the_largest_size_is_judged() {
    assert_eq!(check(&padded(LARGEST_FILE)), reply(0, 0, 3));
    assert_eq!(check(&vec![9; LARGEST_FILE]), reply(3, 1, 0));
}

#[test]
fn a_windows_copy_is_the_same_where_it_is_within_the_limit() {
    for (size, verdict) in
        [(LARGEST_FILE - 3, (reply(0, 0, 1), 0)), (LARGEST_FILE - 2, (reply(1, 0, 0), 2))]
    {
        let file = padded(size);
        let lines: Vec<&[u8]> = file.split(|&byte| byte == b'\n').collect();
        assert_eq!(same(&file, &lines.join(&b"\r\n"[..])), verdict, "{size}");
    }
}

#[test]
fn a_larger_file_is_refused_before_a_byte_is_seen() {
    let large = vec![9; LARGEST_FILE + 1];
    let mut room = [-1; 20];
    assert_eq!(check(&large), reply(1, 0, 0));
    assert_eq!(read(&large, &mut room), reply(1, 0, 0));
    assert_eq!(Reader::open(&large).next(&mut room), reply(1, 0, 0));
    assert_eq!(room, [-1; 20]);
    assert_eq!(canon(&large), Err(reply(1, 0, 0)));
    assert_eq!(same(&large, b""), (reply(1, 0, 0), 1));
    assert_eq!(same(b"", &large), (reply(13, 1, 0), 1));
    assert_eq!(judge(LIBRARY, &large), (reply(1, 0, 0), 2));
}

#[test]
fn rows_are_lent_in_elevens() {
    for length in 0..33 {
        let mut lent = vec![-1; length];
        assert_eq!(read(LIBRARY, &mut lent), reply(2, 0, 3));
        assert_eq!(lent, vec![-1; length]);
    }
    let mut lent = [-1; 43];
    assert_eq!(read(LIBRARY, &mut lent), reply(0, 0, 3));
    assert_eq!(lent[..11], [10, 0, 0, 0, 0, 0, 0, 0, 0, 0, 1]);
    assert_eq!(lent[11..22], [11, 2, 300_000, 25, 1, 27, 19, 1, 0, 0, 2]);
    assert_eq!(lent[22..33], [19, 0, 0, 0, 0, 0, 0, 0, 0, 0, 3]);
    assert_eq!(lent[33..], [-1; 10]);
}

#[test]
fn lines_are_counted_in_a_file_of_the_largest_size() {
    let before = LARGEST_FILE - LIBRARY.len();
    let file = [&vec![b'\n'; before], LIBRARY].concat();
    let lines = rows(&file).expect("a library").iter().map(|row| row[LINE]).collect::<Vec<_>>();
    assert_eq!(lines, [1, 2, 3].map(|line| before as i64 + line));
}

#[test]
fn a_refused_file_gives_its_own_refusal_whatever_is_lent() {
    assert_eq!(read(b".HEADER\n", &mut []), reply(13, 2, 0));
    assert_eq!(read(b".HEADER\n\n", &mut [-1; 5]), reply(5, 2, 0));
}

#[test]
fn the_writer_takes_whole_rows_only() {
    let mut list = rows(LIBRARY).expect("a library").concat();
    let mut out = [b'?'; 70];
    assert_eq!(write(&[], LIBRARY, &mut out), reply(15, 0, 0));
    assert_eq!(write(&list[..32], LIBRARY, &mut out), reply(15, 0, 0));
    assert_eq!(out, [b'?'; 70]);
    list.extend_from_slice(&[i64::MIN; 10]);
    assert_eq!(write(&list, LIBRARY, &mut out), reply(0, 0, 61));
    assert_eq!((&out[..61], &out[61..]), (LIBRARY, &[b'?'; 9][..]));
    list.push(0);
    assert_eq!(write(&list, LIBRARY, &mut out), reply(15, 0, 0));
}

#[test]
fn the_writer_refuses_any_extreme_column() {
    let list = rows(LIBRARY).expect("a library").concat();
    for place in 0..list.len() {
        for value in [i64::MIN, -1, 62, i64::MAX] {
            let mut list = list.clone();
            let integer = place == STRIDE + 7 && value.unsigned_abs() < 100;
            let last_line = place == 2 * STRIDE + LINE && value > 2;
            list[place] = value;
            let number = write(&list, LIBRARY, &mut [0; 70]).number;
            assert_eq!(number, if integer || last_line { 0 } else { 15 }, "{place} {value}");
        }
    }
}

#[test]
fn the_writer_wants_lines_that_rise_from_1_or_more() {
    let list = rows(LIBRARY).expect("a library");
    let edges = [i64::MIN, i64::MIN + 1, -1, 0, 1, 2, 3, i64::MAX - 1, i64::MAX];
    for lines in edges.map(|a| edges.map(|b| edges.map(|c| [a, b, c]))).concat().concat() {
        let mut list = list.clone();
        for (row, line) in list.iter_mut().zip(lines) {
            row[LINE] = line;
        }
        let rise = 1 <= lines[0] && lines[0] < lines[1] && lines[1] < lines[2];
        let answer = if rise { reply(0, 0, 61) } else { reply(15, 0, 0) };
        assert_eq!(write(&list.concat(), LIBRARY, &mut [0; 61]), answer, "{lines:?}");
    }
}

/// The numbers of rows with these first columns, on the lines from 1 on.
fn numbered(records: &[&[i64]]) -> Vec<i64> {
    let row = |(line, record): (i64, &&[i64])| {
        let mut row = [0; STRIDE];
        row[..record.len()].copy_from_slice(record);
        row[LINE] = line;
        row
    };
    (1..).zip(records).flat_map(row).collect()
}

#[test]
fn the_writer_looks_at_meaning_before_size_before_room() {
    let text = vec![b'x'; LARGEST_FILE / 8];
    let lent = [b"2024/05/06.07:08:09", &text[..]].concat();
    let header: [&[i64]; 3] = [&[10], &[11, 2, 300_000, 19, 1, 0, 19, 1], &[19]];
    let opening: [&[i64]; 2] = [&[140], &[141, 19, 1, 19, 1]];
    let circle: [&[i64]; 2] = [&[142], &[142, 0, 1, 0, 36_000_000]];
    let before = [&header[..], &opening, &circle].concat();
    let property = [143, 19, text.len() as i64, 19, text.len() as i64];
    let properties = vec![&property[..]; 50_000];
    let open = numbered(&[&before[..], &properties].concat());
    assert_eq!(write(&open, &lent, &mut []), reply(15, 0, 0));
    let mut list = numbered(&[&before[..], &properties, &[&[149]]].concat());
    assert_eq!(write(&list, &lent, &mut []), reply(1, 0, 0));
    let short = numbered(&[&before[..], &[&[149]]].concat());
    assert_eq!(write(&short, &lent, &mut []).number, 14);
    list[LINE] = 2;
    assert_eq!(write(&list, &lent, &mut []), reply(15, 0, 0), "the first two lines are equal");
}

#[test]
fn canonical_text_may_be_over_the_limit() {
    let file = many_points(LARGEST_FILE);
    assert_eq!(check(&file).number, 0);
    assert_eq!(canon(&file), Err(reply(1, 0, 0)));
    assert_eq!(same(&file, &file), (reply(0, 0, 1), 0));
}

#[test]
fn the_readers_slice_is_written_field_by_field() {
    let mut room = [-1; 7];
    let mut reader = Reader::open(b"# c\n a \"b c\" \"\"\n\n\"\nx");
    assert_eq!(reader.next(&mut room), reply(0, 0, 0));
    assert_eq!(room, [-1; 7]);
    assert_eq!(reader.next(&mut room[..5]), reply(2, 0, 3));
    assert_eq!(room, [-1; 7]);
    assert_eq!(reader.next(&mut room), reply(0, 0, 3));
    assert_eq!(room, [5, 1, 8, 3, 14, 0, -1]);
    assert_eq!(reader.next(&mut []), reply(0, 0, 0));
    assert_eq!(reader.next(&mut room), reply(4, 4, 0));
    assert_eq!(reader.next(&mut room), reply(0, 0, 1));
    assert_eq!(room, [19, 1, 8, 3, 14, 0, -1]);
    assert_eq!(reader.next(&mut room), reply(13, 6, 0));
}

#[test]
fn very_many_fields_are_only_counted() {
    let line = b"x ".repeat(LARGEST_FILE / 2);
    assert_eq!(check(&line), reply(5, 1, 0));
    assert_eq!(check(&[b".HEADER\n", &line[8..]].concat()), reply(6, 2, 0));
    assert_eq!(Reader::open(&line).next(&mut []), reply(2, 0, LARGEST_FILE as u64 / 2));
}
