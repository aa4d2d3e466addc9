//! Whole sections, one writer for each form that document 01 gives them.

use crate::letters::{HOLE_PARTS, REFERENCES};
use crate::pen::Pen;
use crate::values::{self, ONE};

const OWNERS: &[&str] = &["MCAD", "ECAD", "UNOWNED"];
const FACES: &[&str] = &["TOP", "BOTTOM"];
const SIDES: &[&str] = &["TOP", "BOTTOM", "BOTH"];
const LAYERS: &[&str] = &["TOP", "BOTTOM", "BOTH", "INNER", "ALL"];
/// The units of a file or component.
pub const UNITS: &[&str] = &["MM", "THOU"];

/// Writes a section: its opening line, what `body` writes, and its closing line.
pub fn section(pen: &mut Pen, name: &str, owned: bool, body: impl FnOnce(&mut Pen)) {
    pen.free_lines();
    pen.keyword(".", name);
    if owned {
        pen.one_of(OWNERS);
    }
    pen.end();
    body(pen);
    pen.keyword(".END_", name);
    pen.end();
}

/// Writes the header of a file of this type.
pub fn header(pen: &mut Pen, file_type: &str) {
    section(pen, "HEADER", false, |pen| {
        pen.word(file_type);
        pen.number(3 * ONE);
        pen.any_text();
        let date = values::date(pen.random);
        pen.date(&date);
        let version = pen.random.pick(&[1, 0, -1, 42, 999_999_999, -999_999_999]);
        pen.integer(version);
        pen.end();
        if file_type != "LIBRARY_FILE" {
            pen.any_text();
            pen.one_of(UNITS);
            pen.end();
        }
    });
}

/// Writes the outline of a board or panel.
pub fn outline(pen: &mut Pen, name: &str) {
    section(pen, name, true, |pen| {
        pen.any_number(true);
        pen.end();
        many_loops(pen);
    });
}

/// Writes one of the sections that may stand any number of times in a board or panel.
pub fn area(pen: &mut Pen) {
    match pen.random.below(7) {
        0 => section(pen, "OTHER_OUTLINE", true, |pen| {
            pen.any_text();
            pen.any_number(false);
            pen.one_of(FACES);
            pen.end();
            many_loops(pen);
        }),
        1 => routed(pen, "ROUTE_OUTLINE"),
        2 => routed(pen, "ROUTE_KEEPOUT"),
        3 => placed(pen, "PLACE_OUTLINE"),
        4 => placed(pen, "PLACE_KEEPOUT"),
        5 => section(pen, "VIA_KEEPOUT", true, one_loop),
        _ => section(pen, "PLACE_REGION", true, |pen| {
            pen.one_of(SIDES);
            pen.any_text();
            pen.end();
            one_loop(pen);
        }),
    }
}

fn routed(pen: &mut Pen, name: &str) {
    section(pen, name, true, |pen| {
        pen.one_of(LAYERS);
        pen.end();
        one_loop(pen);
    });
}

fn placed(pen: &mut Pen, name: &str) {
    section(pen, name, true, |pen| {
        pen.one_of(SIDES);
        pen.any_number(false);
        pen.end();
        one_loop(pen);
    });
}

/// Writes drilled holes up to a size.
pub fn holes(pen: &mut Pen, size: usize) {
    section(pen, "DRILLED_HOLES", false, |pen| {
        while pen.out.len() < size {
            let diameter = values::count(pen.random, false).max(1);
            pen.number(diameter);
            pen.any_number(true);
            pen.any_number(true);
            pen.one_of(&["PTH", "NPTH"]);
            let part = values::text_or_name(pen.random, HOLE_PARTS);
            pen.text_or_name(&part, HOLE_PARTS);
            pen.any_text();
            pen.one_of(OWNERS);
            pen.end();
        }
    });
}

/// Writes notes up to a size.
pub fn notes(pen: &mut Pen, size: usize) {
    section(pen, "NOTES", false, |pen| {
        while pen.out.len() < size {
            for _ in 0..4 {
                pen.any_number(true);
            }
            pen.any_text();
            pen.end();
        }
    });
}

/// Writes one placement: package, part and reference, then where it stands.
pub fn placement(pen: &mut Pen, package: &[u8], part: &[u8], reference: &[u8]) {
    pen.text(package);
    pen.text(part);
    pen.text_or_name(reference, REFERENCES);
    pen.end();
    pen.any_number(true);
    pen.any_number(true);
    pen.any_number(false);
    pen.any_number(true);
    pen.one_of(FACES);
    pen.one_of(&["PLACED", "UNPLACED", "MCAD", "ECAD"]);
    pen.end();
}

/// Writes one component of a library.
pub fn component(pen: &mut Pen, geometry: &[u8], part: &[u8], mechanical: bool) {
    let name = if mechanical { "MECHANICAL" } else { "ELECTRICAL" };
    section(pen, name, false, |pen| {
        pen.text(geometry);
        pen.text(part);
        pen.one_of(UNITS);
        pen.any_number(true);
        pen.end();
        one_loop(pen);
        while !mechanical && pen.random.one_in(3) {
            pen.word("PROP");
            pen.any_text();
            pen.any_text();
            pen.end();
        }
    });
}

/// Writes loops labelled 0, 1, 2 and on.
fn many_loops(pen: &mut Pen) {
    points(pen, 0);
    let mut label = 1;
    while pen.random.one_in(3) {
        points(pen, label);
        label += 1;
    }
}

/// Writes one loop, labelled 0 or 1.
fn one_loop(pen: &mut Pen) {
    let label = pen.random.below(2) as i64;
    points(pen, label);
}

/// Writes a circle, or a path that comes back to its first point, perhaps more than once.
fn points(pen: &mut Pen, label: i64) {
    let first = place(pen);
    point(pen, label, first, 0);
    let mut last = other_place(pen, first);
    if pen.random.one_in(3) {
        return point(pen, label, last, 360 * ONE);
    }
    any_point(pen, label, last);
    for _ in 0..pen.random.below(6) {
        last = other_place(pen, last);
        any_point(pen, label, last);
    }
    if last != first {
        any_point(pen, label, first);
    }
}

fn any_point(pen: &mut Pen, label: i64, place: (i64, i64)) {
    let angle = values::angle(pen.random);
    point(pen, label, place, angle);
}

fn point(pen: &mut Pen, label: i64, (x, y): (i64, i64), angle: i64) {
    pen.integer(label);
    pen.number(x);
    pen.number(y);
    pen.number(angle);
    pen.end();
}

/// A place, often one of a few so that points meet again.
fn place(pen: &mut Pen) -> (i64, i64) {
    if pen.random.one_in(2) {
        return (pen.random.below(3) as i64 * ONE, 0);
    }
    (values::count(pen.random, true), values::count(pen.random, true))
}

fn other_place(pen: &mut Pen, than: (i64, i64)) -> (i64, i64) {
    loop {
        let place = place(pen);
        if place != than {
            return place;
        }
    }
}
