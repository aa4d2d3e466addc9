//! The loop rules against their plain statement, on every short list of points.

use second::check;

/// A point of the small world tried here: label, place and angle in degrees.
type Point = (u64, char, u64);

const BEFORE: &str =
    ".HEADER\nBOARD_FILE 3 s 2024/05/06.07:08:09 1\nn MM\n.END_HEADER\n.BOARD_OUTLINE MCAD\n1\n";
const BETWEEN: &str = "0 0 0 0\n0 1 0 360\n.END_BOARD_OUTLINE\n.VIA_KEEPOUT MCAD\n";

/// Whether points are loops as document 01 says it: the loops are the runs of one label.
fn are_loops(points: &[Point], many: bool) -> bool {
    let mut runs: Vec<Vec<Point>> = Vec::new();
    for &point in points {
        match runs.last_mut() {
            Some(run) if run[0].0 == point.0 => run.push(point),
            _ => runs.push(vec![point]),
        }
    }
    let labels: Vec<u64> = runs.iter().map(|run| run[0].0).collect();
    let labelled = match labels[..] {
        [] => false,
        [label] if !many => label <= 1,
        _ => many && labels.iter().copied().eq(0..labels.len() as u64),
    };
    labelled && runs.iter().all(|run| is_loop(run))
}

/// A circle, or three lines or more that come back and turn by 360 nowhere.
fn is_loop(run: &[Point]) -> bool {
    let angles = run.iter().map(|point| point.2);
    let circle = run.len() == 2 && run[1].2 == 360;
    let path = run.len() >= 3
        && run.first().map(|point| point.1) == run.last().map(|point| point.1)
        && !angles.clone().any(|angle| angle == 360);
    let neighbours_differ = run.windows(2).all(|pair| pair[0].1 != pair[1].1);
    angles.take(1).all(|angle| angle == 0) && neighbours_differ && (circle || path)
}

/// A file up to the closing line of a section with these points.
fn file(points: &[Point], many: bool) -> String {
    let lines = points.iter().map(|(label, place, angle)| {
        let place = match place {
            'A' => "0 -0.0",
            'B' => "0.00001 0",
            _ => "0 1",
        };
        format!("{label} {place} {angle}\n")
    });
    let (start, end) = match many {
        true => (BEFORE.to_string(), ".END_BOARD_OUTLINE\n"),
        false => ([BEFORE, BETWEEN].concat(), ".END_VIA_KEEPOUT\n"),
    };
    start + &lines.collect::<String>() + end
}

/// Tries every list of at most so many points of an alphabet, in both kinds of section.
fn try_all(alphabet: &[Point], most: usize) {
    let mut lists: Vec<Vec<Point>> = vec![vec![]];
    for _ in 0..=most {
        for list in &lists {
            for many in [false, true] {
                let number = check(file(list, many).as_bytes()).number;
                assert_eq!(number, if are_loops(list, many) { 13 } else { 11 }, "{list:?}");
            }
        }
        let longer = |list: &Vec<Point>| -> Vec<Vec<Point>> {
            alphabet.iter().map(|point| [&list[..], &[*point]].concat()).collect()
        };
        lists = lists.iter().flat_map(longer).collect();
    }
}

#[test]
fn all_lists_of_up_to_four_points() {
    let mut alphabet = Vec::new();
    for label in [0, 1, 2] {
        for place in ['A', 'B'] {
            alphabet.extend([0, 90, 360].map(|angle| (label, place, angle)));
        }
    }
    try_all(&alphabet, 4);
}

#[test]
fn all_lists_of_up_to_seven_points_of_two_loops() {
    try_all(&[(0, 'A', 0), (0, 'B', 0), (1, 'A', 0), (1, 'C', 0)], 7);
}

#[test]
fn all_paths_of_up_to_eight_points() {
    try_all(&[(0, 'A', 0), (0, 'B', 0), (0, 'C', 0)], 8);
}
