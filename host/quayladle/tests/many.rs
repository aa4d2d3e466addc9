//! Components so many, or with names so long, that the tables of the proved library do not hold them.

use quayladle::{check, judge, rows, write, Reply, Verdict, STRIDE};

const LIBRARY: &str = ".HEADER\nLIBRARY_FILE 3.0 s 2024/05/06.07:08:09 1\n.END_HEADER\n";
/// The lines of a library's header, and of a component.
const HEADER_LINES: u64 = 3;
const LINES: u64 = 5;
/// So many names that some share all their marks with others.
const MANY: u64 = 250_000;

const fn reply(number: u64, line: u64, count: u64) -> Reply {
    Reply { number, line, count }
}

fn component(names: &str) -> String {
    format!(".ELECTRICAL\n{names} MM 1\n0 0 0 0\n0 1 0 360\n.END_ELECTRICAL\n")
}

/// A library of components with these numbers.
fn library(numbers: impl IntoIterator<Item = u64>) -> Vec<u8> {
    let mut text = LIBRARY.to_string();
    text.extend(numbers.into_iter().map(|n| component(&format!("g{n} p"))));
    text.into_bytes()
}

/// A board with placements of these names.
fn board(names: &[String]) -> Vec<u8> {
    let placements: String =
        names.iter().map(|names| format!("{names} U1\n0 0 0 0 TOP PLACED\n")).collect();
    format!(
        ".HEADER\nBOARD_FILE 3.0 s 2024/05/06.07:08:09 1\nb MM\n.END_HEADER\n\
         .BOARD_OUTLINE MCAD\n1.6\n0 0 0 0\n0 1 0 360\n.END_BOARD_OUTLINE\n\
         .PLACEMENT\n{placements}.END_PLACEMENT\n"
    )
    .into_bytes()
}

/// The line that names a component, counted from 0.
const fn line_of(component: u64) -> u64 {
    HEADER_LINES + component * LINES + 2
}

#[test]
fn a_library_of_more_components_than_the_marks_tell_apart_is_whole() {
    let file = library(0..MANY);
    assert_eq!(check(&file), reply(0, 0, HEADER_LINES + MANY * LINES));
}

#[test]
fn of_many_components_the_first_that_comes_again_is_refused() {
    let again = |n| if n % 100_000 == 99_999 { n - 70_000 } else { n };
    let mut file = library((0..MANY).map(again));
    assert_eq!(check(&file), reply(12, line_of(99_999), 0));
    // A fault before it comes first, a fault behind it does not.
    file.extend(b".FOO\n");
    assert_eq!(check(&file), reply(12, line_of(99_999), 0));
    file.splice(LIBRARY.len()..LIBRARY.len(), *b".FOO\n");
    assert_eq!(check(&file), reply(5, 4, 0));
}

#[test]
fn of_many_components_one_that_comes_again_is_not_written() {
    let file = library(0..MANY);
    let mut list = rows(&file).expect("a library").concat();
    // Their text is over the size limit, which is asked after the names.
    assert_eq!(write(&list, &file, &mut []), reply(1, 0, 0));
    let names = |component| (line_of(component) as usize - 1) * STRIDE + 1;
    list.copy_within(names(0)..names(0) + 4, names(MANY - 1));
    assert_eq!(write(&list, &file, &mut []), reply(15, 0, 0));
}

#[test]
fn a_board_is_judged_by_a_library_of_more_components_than_the_slots_take() {
    let library = library(0..70_000);
    for (parts, number, count, which) in
        [([0, 69_999, 35_000, 1], 0, 4, 0), ([35_000, 80_000, 80_001, 70_000], 16, 2, 1)]
    {
        let board = board(&parts.map(|n| format!("g{n} p")));
        let verdict = judge(&board, &library);
        assert_eq!(verdict, Verdict { reply: reply(number, 0, count), which });
    }
}

#[test]
fn a_board_is_judged_by_names_of_any_length() {
    let names = |n: usize| [format!("{} p", "g".repeat(n)), format!("g \"{}\"", "p".repeat(n))];
    let lengths = [255, 256, 1_023, 1_024, 70_000];
    let entries: Vec<String> = lengths.iter().flat_map(|&n| names(n)).collect();
    let far = format!("far{}p", " ".repeat(1_100));
    let library = [LIBRARY.to_string(), component(&far)].into_iter();
    let library: String = library.chain(entries.iter().map(|names| component(names))).collect();
    let mut placed = entries;
    placed.push("far p".to_string());
    let count = placed.len() as u64;
    let verdict = judge(&board(&placed), library.as_bytes());
    assert_eq!(verdict, Verdict { reply: reply(0, 0, count), which: 0 });
    placed.extend(names(1_025));
    let verdict = judge(&board(&placed), library.as_bytes());
    assert_eq!(verdict, Verdict { reply: reply(16, 0, count + 1), which: 1 });
}
