//! The bounds that the proved library is held to, and whether it meets them.

use crate::asking::Operation;
use crate::special::Special;
use crate::speeds::Speed;
use crate::timing::Times;
use crate::windows::Pair;

/// The most that the proved library may take, as a multiple of the second reader's time.
const RATIOS: [(Operation, f64); 3] =
    [(Operation::Check, 1.5), (Operation::Read, 2.0), (Operation::Write, 2.0)];
/// The most that its time per byte may grow from the smallest size on.
const GROWTH: f64 = 1.15;
/// The most that `check` may take for a line of a Windows copy, as a multiple of what it takes for one of the file.
const WINDOWS: f64 = 1.05;
/// The most in special cases, by their letters.
const SPECIALS: [(char, f64); 3] = [('a', 2.0), ('b', 3.0), ('e', WINDOWS)];

/// Each bound in a line: whether it is met, and the worst figure with its file.
pub fn lines(speeds: &[Speed], specials: &[Special], over: &str) -> Vec<String> {
    let of = |operation| speeds.iter().filter(move |speed| speed.operation == operation);
    let mut lines = Vec::new();
    for (operation, most) in RATIOS {
        let figures = of(operation).map(|speed| (speed.name(), Times::ratio(&speed.times)));
        let what = format!("{operation} over the second reader's, at most {most}");
        lines.push(line(&what, most, figures, over));
    }
    let smallest = speeds.iter().map(|speed| speed.size).min();
    for operation in Operation::ALL {
        let larger = of(operation).filter(|speed| Some(speed.size) != smallest);
        let figures = larger.map(|speed| (speed.name(), speed.growth));
        let what = format!("growth of {operation}, at most {GROWTH}");
        lines.push(line(&what, GROWTH, figures, over));
    }
    for (letter, most) in SPECIALS {
        let case = specials.iter().filter(|case| case.letter == letter);
        let figures = case.map(|case| (format!("case {letter}"), case.proved));
        lines.push(line(&format!("special case {letter}, at most {most}"), most, figures, over));
    }
    lines
}

/// The bound on Windows copies in a line, by instructions.
pub fn windows(pairs: &[Pair]) -> String {
    let checks = pairs.iter().filter(|pair| pair.file.operation == Operation::Check);
    let figures = checks.map(|pair| (pair.file.kind.sized(pair.file.size), Some(pair.ratios()[0])));
    let what = format!("check of a Windows copy over the file's, for a line, at most {WINDOWS}");
    line(&what, WINDOWS, figures, "not counted")
}

/// One bound over some figures; one that is missing was over the limit.
fn line(
    what: &str,
    most: f64,
    figures: impl Iterator<Item = (String, Option<f64>)>,
    over: &str,
) -> String {
    let (mut missing, mut worst) = (None, None);
    for (name, figure) in figures {
        match (figure, &worst) {
            (None, _) => missing = missing.or(Some(name)),
            (Some(figure), Some((least, _))) if figure <= *least => (),
            (Some(figure), _) => worst = Some((figure, name)),
        }
    }
    let verdict = match (missing, worst) {
        (None, None) => "not measured".to_string(),
        (Some(missing), None) => format!("NOT met, {over} ({missing})"),
        (Some(missing), Some((worst, name))) => {
            format!("NOT met, {over} ({missing}), of the others {worst:.2} ({name})")
        }
        (None, Some((worst, name))) if worst <= most => format!("met, {worst:.2} ({name})"),
        (None, Some((worst, name))) => format!("NOT met, {worst:.2} ({name})"),
    };
    format!("- {what}: {verdict}")
}

#[cfg(test)]
mod tests {
    use super::*;

    #[test]
    fn the_worst_figure_decides() {
        let said = |figures: &[Option<f64>]| {
            let named =
                figures.iter().enumerate().map(|(place, &worst)| (place.to_string(), worst));
            line("x", 1.5, named, "> 20 s")
        };
        assert_eq!(said(&[Some(1.5), Some(1.2)]), "- x: met, 1.50 (0)");
        assert_eq!(said(&[Some(1.5), Some(1.51)]), "- x: NOT met, 1.51 (1)");
        assert_eq!(said(&[None, None]), "- x: NOT met, > 20 s (0)");
        assert_eq!(said(&[Some(1.0), None]), "- x: NOT met, > 20 s (1), of the others 1.00 (0)");
        assert_eq!(said(&[]), "- x: not measured");
    }
}
