//! Sections as files of a CAD system have them: outlines, areas, drilled holes and components.

use generate::Random;

use crate::parts::Part;
use crate::sheet::{Sheet, ONE};

const PROPERTIES: [&str; 6] =
    ["RESISTANCE", "TOLERANCE", "POWER_OPR", "POWER_MAX", "THERM_COND", "THETA_JB"];

/// Writes the header of a file of this type.
pub fn header(sheet: &mut Sheet, file_type: &str) {
    line(sheet, ".HEADER");
    sheet.word(file_type);
    sheet.word("3.0");
    sheet.text("Quayladle_bench");
    sheet.word("2026/11/15.12:00:00");
    sheet.integer(1);
    sheet.end();
    if file_type != "LIBRARY_FILE" {
        sheet.text("made_up");
        sheet.word("MM");
        sheet.end();
    }
    line(sheet, ".END_HEADER");
}

/// Writes a keyword on a line of its own.
pub fn line(sheet: &mut Sheet, keyword: &str) {
    sheet.keyword(keyword);
    sheet.end();
}

/// Writes the outline of the whole, with a hole in it.
pub fn outline(sheet: &mut Sheet, random: &mut Random, name: &str) {
    section(sheet, name, "MCAD", |sheet| {
        sheet.number(16_000);
        sheet.end();
        corners(sheet, random, 0, 24);
        corners(sheet, random, 1, 4);
    });
}

/// Writes one of the sections that mark off an area.
pub fn area(sheet: &mut Sheet, random: &mut Random) {
    let count = 4 + random.below(12);
    match random.below(3) {
        0 => section(sheet, "ROUTE_KEEPOUT", "ECAD", |sheet| {
            sheet.word("ALL");
            sheet.end();
            corners(sheet, random, 0, count);
        }),
        1 => section(sheet, "PLACE_KEEPOUT", "MCAD", |sheet| {
            sheet.word("TOP");
            sheet.number(random.below(40) as i64 * ONE / 4);
            sheet.end();
            corners(sheet, random, 0, count);
        }),
        _ => section(sheet, "VIA_KEEPOUT", "UNOWNED", |sheet| corners(sheet, random, 0, count)),
    }
}

/// Writes a section with its owner.
fn section(sheet: &mut Sheet, name: &str, owner: &str, body: impl FnOnce(&mut Sheet)) {
    sheet.keyword(&format!(".{name}"));
    sheet.word(owner);
    sheet.end();
    body(sheet);
    line(sheet, &format!(".END_{name}"));
}

/// Writes a drilled hole.
pub fn hole(sheet: &mut Sheet, random: &mut Random) {
    sheet.number(random.pick(&[3_000, 5_000, 9_000, 32_000]));
    point(sheet, random);
    sheet.word(random.pick(&["PTH", "PTH", "NPTH"]));
    sheet.text(random.pick(&["BOARD", "NOREFDES", "J14"]));
    sheet.text(random.pick(&["VIA", "VIA", "PIN", "MTG"]));
    sheet.word(random.pick(&["ECAD", "MCAD"]));
    sheet.end();
}

/// Writes x and y on a raster of a twentieth, now and then below zero.
pub fn point(sheet: &mut Sheet, random: &mut Random) {
    for _ in 0..2 {
        let sign = if random.one_in(8) { -1 } else { 1 };
        sheet.number(sign * random.below(8_000) as i64 * ONE / 20);
    }
}

/// Writes a closed loop of so many corners, from left to right and back to the first.
fn corners(sheet: &mut Sheet, random: &mut Random, label: u32, count: usize) {
    let (x, y) = (random.below(800) as i64 * ONE / 4, random.below(800) as i64 * ONE / 4);
    corner(sheet, label, (x, y), 0);
    for place in 1..count as i64 {
        let angle = random.pick(&[0, 0, 0, 0, 0, 90, -180]) * ONE;
        let height = random.below(800) as i64 * ONE / 4;
        corner(sheet, label, (x + place * ONE / 2, height), angle);
    }
    corner(sheet, label, (x, y), 0);
}

fn corner(sheet: &mut Sheet, label: u32, (x, y): (i64, i64), angle: i64) {
    sheet.integer(label);
    sheet.number(x);
    sheet.number(y);
    sheet.number(angle);
    sheet.end();
}

/// Writes a component that ends at a place, or somewhat before it, with an outline of four to twelve lines.
pub fn component(sheet: &mut Sheet, random: &mut Random, part: &Part, end: usize) {
    const LINE_BYTES: usize = 32;
    let name = if part.letter.is_some() { "ELECTRICAL" } else { "MECHANICAL" };
    line(sheet, &format!(".{name}"));
    sheet.text(part.package);
    sheet.text(&part.number);
    sheet.word("MM");
    sheet.number((1 + random.below(200) as i64) * ONE / 20);
    sheet.end();
    let closing = format!(".END_{name}");
    let room = end.saturating_sub(sheet.file.len() + closing.len() + 1) / LINE_BYTES;
    let lines = (4 + random.below(9)).min(room.max(4));
    corners(sheet, random, 0, lines - 1);
    if part.letter.is_some() {
        sheet.fill(end.saturating_sub(closing.len() + 1), |sheet| property(sheet, random));
    }
    line(sheet, &closing);
}

fn property(sheet: &mut Sheet, random: &mut Random) {
    sheet.word("PROP");
    sheet.text(random.pick(&PROPERTIES));
    sheet.text(&format!("{}.{}", random.below(1_000), random.below(100)));
    sheet.end();
}
