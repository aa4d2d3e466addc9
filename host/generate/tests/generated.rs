//! The second reader on generated files: every reply on content occurs, and what it says of a file
//! agrees with what it says of the file's parts, rows and canonical text.

use std::collections::{BTreeMap, BTreeSet};

use generate::{
    board, changed, damaged, file, lettered, lines, matched, panel, windows_copy, Random,
};
use second::{canon, check, judge, read, rows, same, write, Reader, Reply, Row, LINE, STRIDE};

const FILES: u64 = 20_000;

#[test]
fn whole_files_are_accepted_and_hold_every_kind_of_line() {
    let mut kinds = BTreeSet::new();
    for seed in (0..FILES).step_by(2) {
        let list = rows(&file(seed)).unwrap_or_else(|reply| panic!("{seed}: {reply:?}"));
        kinds.extend(list.iter().map(|row| row[0]));
    }
    assert_eq!(kinds.len(), 58, "{kinds:?}");
}

#[test]
fn whole_files_end_their_lines_in_each_way() {
    let (mut plain, mut windows, mut mixed) = (0, 0, 0);
    for seed in (0..FILES).step_by(2) {
        let file = file(seed);
        let ends = file.iter().filter(|&&byte| byte == b'\n').count();
        match file.windows(2).filter(|pair| pair == b"\r\n").count() {
            0 => plain += 1,
            count if count == ends => windows += 1,
            _ => mixed += 1,
        }
    }
    println!("plain {plain}, Windows {windows}, mixed {mixed}");
    assert!(plain > windows + mixed && windows > 500 && mixed > 500);
}

#[test]
fn whole_files_spell_their_words_in_each_way() {
    let (mut capitals, mut small, mut mixed) = (0, 0, 0);
    for seed in (0..FILES).step_by(2) {
        let file = file(seed);
        // Only keywords and comments stand before the file's type.
        let of_type = file.windows(5).find(|bytes| bytes.eq_ignore_ascii_case(b"_FILE"));
        match of_type.expect("the type of a whole file") {
            b"_FILE" => capitals += 1,
            b"_file" => small += 1,
            _ => mixed += 1,
        }
    }
    println!("capitals {capitals}, small {small}, mixed {mixed}");
    assert!(capitals > small + mixed && small > 500 && mixed > 500);
}

#[test]
fn whole_files_hold_every_name_and_prop_in_any_letters() {
    let mut seen = BTreeMap::new();
    for seed in (0..FILES).step_by(2) {
        let file = file(seed);
        for row in rows(&file).expect("a whole file") {
            let (bytes, known) = match row[0] {
                143 => (first_field(&file, row[1] as usize), &["PROP"][..]),
                111 | 131 => (text_at(&row, 5, &file), names(111, 5)),
                _ => continue,
            };
            if let Some(name) =
                known.iter().find(|name| name.as_bytes().eq_ignore_ascii_case(bytes))
            {
                *seen.entry((row[0], *name, name.as_bytes() == bytes)).or_insert(0) += 1;
            }
        }
    }
    println!("names in capitals and not: {seen:?}");
    // PROP, three parts of holes, and three references, of which PANEL is a text like others.
    assert!(seen.len() == 2 * (1 + 3 + 3) && seen.values().all(|&count| count > 20), "{seen:?}");
}

/// The first field of the line in which a place stands.
fn first_field(file: &[u8], at: usize) -> &[u8] {
    let start = file[..at].iter().rposition(|&byte| byte == b'\n').map_or(0, |end| end + 1);
    file[start..].split(|&byte| byte == b' ').find(|field| !field.is_empty()).unwrap_or(&[])
}

#[test]
fn letters_of_words_and_names_change_nothing() {
    for seed in 0..FILES / 4 {
        let [capitals, small, mixed] = lettered(&mut Random::new(seed), 900);
        for other in [small, mixed] {
            assert!(other.eq_ignore_ascii_case(&capitals), "{seed}");
            // Rows are places and values, so not one number differs.
            assert_eq!(rows(&other), rows(&capitals), "{seed}");
            assert_eq!(same(&capitals, &other), (Reply { number: 0, line: 0, count: 1 }, 0));
            assert_eq!(canon(&other), canon(&capitals), "{seed}");
        }
    }
}

#[test]
fn damage_reaches_letters_in_each_way() {
    let mut seen = BTreeMap::new();
    for seed in 0..FILES {
        let mut random = Random::new(seed);
        let whole = if seed % 2 == 0 { board } else { panel }(&mut random, 400);
        let hurt = damaged(&mut random, &whole);
        let reply = check(&hurt);
        let line = hurt.split(|&byte| byte == b'\n').nth((reply.line as usize).saturating_sub(1));
        let last = line.and_then(|line| line.rsplit(|&byte| byte == b' ').next()).unwrap_or(&[]);
        let what = match (reply.number, last) {
            (0, _) if hurt != whole && hurt.eq_ignore_ascii_case(&whole) => {
                ["another text", "other letters"][same(&whole, &hurt).0.count as usize]
            }
            (9, b"BOARD" | b"\"BOARD\"") => "BOARD in a board",
            (9, b"board" | b"Board" | b"\"board\"") => "board in other letters",
            (9, [b'"', b'a'..=b'z', ..]) => "a quoted small word",
            _ => continue,
        };
        *seen.entry(what).or_insert(0) += 1;
    }
    println!("{seen:?}");
    assert!(seen.len() == 5 && seen.values().all(|&count| count > 20), "{seen:?}");
}

#[test]
fn every_reply_on_content_occurs() {
    let mut seen = [0; 14];
    for seed in 0..FILES {
        seen[check(&file(seed)).number as usize] += 1;
    }
    println!("replies by number: {seen:?}");
    assert_eq!(seen[1..3], [0, 0]);
    assert!(seen[0] > 0 && seen[3..].iter().all(|&count| count > 0), "{seen:?}");
}

#[test]
fn replies_agree_with_each_other() {
    for seed in 0..FILES {
        let file = file(seed);
        let reply = check(&file);
        assert_eq!(check(&windows_copy(&file)), reply, "{seed}");
        match reply.number {
            0 => accepted(seed, &file, reply.count),
            _ => refused(seed, &file, reply),
        }
    }
}

/// What holds of an accepted file: its rows, canonical text and meaning agree.
fn accepted(seed: u64, file: &[u8], count: u64) {
    let list = rows(file).expect("accepted by check");
    assert_eq!(list.len() as u64, count, "{seed}");
    let (numbers, more) = (STRIDE * list.len(), STRIDE - 1);
    let mut lent = vec![-1; numbers + more];
    assert_eq!(read(file, &mut lent), Reply { number: 0, line: 0, count }, "{seed}");
    assert_eq!((&lent[..numbers], &lent[numbers..]), (&list.concat()[..], &vec![-1; more][..]));
    assert_eq!(lines_of(&list), lines_with_fields(file), "{seed}");
    let copy = rows(&windows_copy(file)).expect("a copy is accepted");
    assert_eq!(lines_of(&copy), lines_of(&list), "{seed}");

    let text = canon(file).expect("a small canonical text");
    let again = rows(&text).expect("canonical text is accepted");
    assert_eq!(meaning(&list, file), meaning(&again, &text), "{seed}");
    assert!(lines_of(&again).into_iter().eq(1..=count as i64), "{seed}");
    assert_eq!(canon(&text).as_ref(), Ok(&text), "{seed}");
    assert!(!text.contains(&b'\r'), "{seed}");
    for other in [&text, &windows_copy(file)] {
        assert_eq!(same(file, other), (Reply { number: 0, line: 0, count: 1 }, 0), "{seed}");
    }

    let mut out = vec![b'?'; text.len() + 3];
    assert_eq!(write(&list.concat(), file, &mut out).count, text.len() as u64, "{seed}");
    assert_eq!(out, [&text[..], b"???"].concat(), "{seed}");
}

/// The line of each row.
fn lines_of(list: &[Row]) -> Vec<i64> {
    list.iter().map(|row| row[LINE]).collect()
}

/// The numbers of a file's lines, from 1, that are neither comments nor blank.
fn lines_with_fields(file: &[u8]) -> Vec<i64> {
    let lines = (1..).zip(file.split(|&byte| byte == b'\n'));
    let is_free =
        |line: &[u8]| line.starts_with(b"#") || line.iter().all(|byte| b" \r".contains(byte));
    lines.filter(|(_, line)| !is_free(line)).map(|(number, _)| number).collect()
}

/// The columns of each kind where a text's start stands, written out once more from document 01.
fn text_starts(kind: i64) -> &'static [usize] {
    match kind {
        11 => &[3, 5],
        12 | 41 => &[1],
        101 => &[2],
        111 => &[5, 7],
        121 => &[5],
        131 => &[1, 3, 5],
        141 | 143 | 151 => &[1, 3],
        _ => &[],
    }
}

/// The names that mean their capitals where a text of a kind starts in a column, written out likewise.
fn names(kind: i64, column: usize) -> &'static [&'static str] {
    match (kind, column) {
        (111, 5) => &["NOREFDES", "BOARD", "PANEL"],
        (131, 5) => &["NOREFDES", "BOARD"],
        _ => &[],
    }
}

/// The text whose start stands in a column.
fn text_at<'a>(row: &Row, column: usize, bytes: &'a [u8]) -> &'a [u8] {
    let start = row[column] as usize;
    &bytes[start..start + row[column + 1] as usize]
}

/// Rows with 0 in place of their lines and of each text's start, and what the texts mean.
fn meaning(list: &[Row], bytes: &[u8]) -> (Vec<Row>, Vec<Vec<u8>>) {
    let mut texts = Vec::new();
    let bare = list.iter().map(|row| {
        let mut bare = *row;
        bare[LINE] = 0;
        for &column in text_starts(row[0]) {
            let text = text_at(row, column, bytes);
            let capitals = text.to_ascii_uppercase();
            let named = names(row[0], column).iter().any(|name| name.as_bytes() == capitals);
            texts.push(if named { capitals } else { text.to_vec() });
            bare[column] = 0;
        }
        bare
    });
    (bare.collect(), texts)
}

/// What holds of a refused file: nothing is written, and the lines before the faulty one are good.
fn refused(seed: u64, file: &[u8], reply: Reply) {
    let mut lent = vec![-1; STRIDE * (file.len() + 1)];
    assert_eq!(read(file, &mut lent), reply, "{seed}");
    assert!(lent.iter().all(|&number| number == -1), "{seed}");
    assert_eq!((rows(file), canon(file)), (Err(reply), Err(reply)), "{seed}");
    assert_eq!((same(file, file), judge(file, file)), ((reply, 1), (reply, 1)), "{seed}");
    assert!((3..=13).contains(&reply.number) && reply.line > 0 && reply.count == 0, "{seed}");
    if reply.number < 13 {
        let before: Vec<&[u8]> = file.split_inclusive(|&byte| byte == b'\n').collect();
        let before = before[..reply.line as usize - 1].concat();
        let viable = check(&before);
        let good = viable.number == 0 || (viable.number, viable.line) == (13, reply.line);
        assert!(good, "{seed}: {reply:?} but before it {viable:?}");
    }
}

#[test]
fn judging_finds_what_is_missing() {
    let mut seen = [0; 18];
    for seed in 0..2_000 {
        let (board, library) = matched(&mut Random::new(seed), 1_500);
        let (reply, which) = judge(&board, &library);
        seen[reply.number as usize] += 1;
        let pairs =
            rows(&board).expect("a board").iter().filter(|row| row[0] == 131).count() as u64;
        match reply.number {
            0 => assert_eq!((reply.count, which), (pairs, 0), "{seed}"),
            _ => assert!(reply.number == 16 && which == 1 && reply.count <= pairs, "{seed}"),
        }
    }
    assert!(seen[0] > 0 && seen[16] > 0, "{seen:?}");
}

#[test]
fn rows_that_are_written_are_read_back() {
    let mut seen = [0; 16];
    for seed in (0..FILES).step_by(2) {
        let file = file(seed);
        let mut random = Random::new(!seed);
        let mut list = rows(&file).expect("a whole file");
        let (row, column) = (random.below(list.len()), 1 + random.below(6));
        list[row][column] = changed(&mut random, list[row][column]);
        let mut out = vec![0; 8 * file.len() + 4096];
        let reply = write(&list.concat(), &file, &mut out);
        seen[reply.number as usize] += 1;
        if reply.number == 0 {
            let text = &out[..reply.count as usize];
            let again = rows(text).expect("written text is accepted");
            assert_eq!(meaning(&again, text), meaning(&list, &file), "{seed}");
        } else {
            assert!(reply.number == 15 && out.iter().all(|&byte| byte == 0), "{seed}: {reply:?}");
        }
    }
    assert!(seen[0] > 1000 && seen[15] > 1000, "{seen:?}");
}

#[test]
fn rows_are_written_exactly_if_their_lines_rise() {
    let mut seen = [0; 16];
    for seed in (0..FILES).step_by(2) {
        let file = file(seed);
        let text = canon(&file).expect("a whole file");
        let mut random = Random::new(!seed);
        let mut list = rows(&file).expect("a whole file");
        let lines = lines(&mut random, list.len());
        for (row, &line) in list.iter_mut().zip(&lines) {
            row[LINE] = line;
        }
        let rise = lines[0] >= 1 && lines.windows(2).all(|pair| pair[0] < pair[1]);
        let mut out = vec![b'?'; text.len()];
        let reply = write(&list.concat(), &file, &mut out);
        seen[reply.number as usize] += 1;
        assert_eq!(reply.number, if rise { 0 } else { 15 }, "{seed}");
        assert!(if rise { out == text } else { out.iter().all(|&byte| byte == b'?') }, "{seed}");
    }
    println!("other lines, replies by number: {seen:?}");
    assert!(seen[0] > 1000 && seen[15] > 1000, "{seen:?}");
}

#[test]
fn nothing_makes_it_panic() {
    let bytes = b"\n\n\n      \"\"##..00123+-.\t\r\x00\x7F\x80\xFFPROPTOPMM.HEADER.NOTES";
    for seed in 0..FILES {
        let mut random = Random::new(seed);
        let length = random.below(80);
        let file: Vec<u8> = (0..length).map(|_| random.pick(bytes)).collect();
        let list: Vec<i64> = (0..length).map(|_| random.below(160) as i64 - 1).collect();
        let mut room = [0; 20];
        assert_ne!(check(&file).number, 0, "{seed}");
        assert_eq!(write(&list, &file, &mut [0; 9]).number, 15, "{seed}");
        let mut reader = Reader::open(&file);
        while !matches!(reader.next(&mut room).number, 2 | 13) {}
    }
}
