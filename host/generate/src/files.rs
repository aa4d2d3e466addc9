//! Whole files: boards, panels and libraries of about a size, and a board with its library.

use std::collections::HashSet;

use crate::letters::{Capitals, REFERENCES};
use crate::pen::Pen;
use crate::random::Random;
use crate::sections::{area, component, header, holes, notes, outline, placement, section};
use crate::values;

/// A component of a library: geometry, part, and whether it is mechanical.
type Entry = (Vec<u8>, Vec<u8>, bool);

/// An acceptable board of about so many bytes.
pub fn board(random: &mut Random, size: usize) -> Vec<u8> {
    placed_file(random, false, size, any_placement).spelled(random)
}

/// An acceptable panel of about so many bytes.
pub fn panel(random: &mut Random, size: usize) -> Vec<u8> {
    placed_file(random, true, size, any_placement).spelled(random)
}

/// An acceptable library of about so many bytes.
pub fn library(random: &mut Random, size: usize) -> Vec<u8> {
    library_with_entries(random, size).0.spelled(random)
}

/// An acceptable file of about so many bytes, three times over: with its words and names in
/// capitals, in small letters, and in mixed ones.
pub fn lettered(random: &mut Random, size: usize) -> [Vec<u8>; 3] {
    let capitals = match random.below(3) {
        0 => placed_file(random, false, size, any_placement),
        1 => placed_file(random, true, size, any_placement),
        _ => library_with_entries(random, size).0,
    };
    let (small, mixed) = (capitals.in_small_letters(), capitals.in_mixed_letters(random));
    [capitals.file, small, mixed]
}

/// A board or panel and a library, of about so many bytes each, that has what is placed; once in
/// three times some placements are without their entry.
pub fn matched(random: &mut Random, size: usize) -> (Vec<u8>, Vec<u8>) {
    let (library, entries) = library_with_entries(random, size);
    let panel = random.one_in(3);
    let spoilt = random.one_in(3);
    let board = placed_file(random, panel, size, |pen, panel| {
        let place = pen.random.below(entries.len());
        if let Some(entry) = entries.get(place) {
            place_entry(pen, entry, panel, spoilt);
        }
    });
    (board.spelled(random), library.spelled(random))
}

/// A board or panel: middle sections up to some size, then placements up to the whole.
fn placed_file(
    random: &mut Random,
    panel: bool,
    size: usize,
    place: impl Fn(&mut Pen, bool),
) -> Capitals {
    let mut pen = Pen::new(random);
    header(&mut pen, if panel { "PANEL_FILE" } else { "BOARD_FILE" });
    outline(&mut pen, if panel { "PANEL_OUTLINE" } else { "BOARD_OUTLINE" });
    let middle = pen.random.below(size + 1);
    middle_sections(&mut pen, middle);
    section(&mut pen, "PLACEMENT", false, |pen| {
        for _ in 0..pen.random.below(3) {
            place(pen, panel);
        }
        let mut before = 0;
        while pen.out.len() < size && pen.out.len() > before {
            before = pen.out.len();
            place(pen, panel);
        }
    });
    finish(pen)
}

/// Sections 4 to 12 in any order up to a size, holes and notes once each at most.
fn middle_sections(pen: &mut Pen, size: usize) {
    let (mut holes_due, mut notes_due) = (true, true);
    while pen.out.len() < size {
        let share = pen.out.len() + pen.random.below(size / 3 + 1);
        match pen.random.below(6) {
            0 if holes_due => {
                holes(pen, share);
                holes_due = false;
            }
            1 if notes_due => {
                notes(pen, share);
                notes_due = false;
            }
            _ => area(pen),
        }
    }
}

/// A placement of any names.
fn any_placement(pen: &mut Pen, panel: bool) {
    let (package, part) = (values::text(pen.random), values::text(pen.random));
    let reference = reference(pen, panel);
    placement(pen, &package, &part, &reference);
}

/// A placement of a library's entry; once in many times, if spoilt, one that the library lacks.
fn place_entry(pen: &mut Pen, (geometry, part, mechanical): &Entry, panel: bool, spoilt: bool) {
    let wrong = spoilt && pen.random.one_in(8);
    let reference = match (*mechanical != wrong, panel && pen.random.one_in(6)) {
        (_, true) => b"BOARD".to_vec(),
        (true, _) => b"NOREFDES".to_vec(),
        (false, _) => values::name(pen.random),
    };
    placement(pen, geometry, part, &reference);
}

/// A reference that may stand: BOARD in panels only, whatever its letter case.
fn reference(pen: &mut Pen, panel: bool) -> Vec<u8> {
    match values::text_or_name(pen.random, REFERENCES) {
        text if !panel && text.eq_ignore_ascii_case(b"BOARD") => b"U1".to_vec(),
        text => text,
    }
}

/// A library and what it holds; no two entries share both geometry and part.
fn library_with_entries(random: &mut Random, size: usize) -> (Capitals, Vec<Entry>) {
    let mut pen = Pen::new(random);
    let mut used = HashSet::new();
    let mut entries = Vec::new();
    header(&mut pen, "LIBRARY_FILE");
    while pen.out.len() < size {
        let (geometry, mut part) = (values::text(pen.random), values::text(pen.random));
        if !used.insert((geometry.clone(), part.clone())) {
            part = format!("{}-{}", entries.len(), pen.random.below(1000)).into_bytes();
            used.insert((geometry.clone(), part.clone()));
        }
        let mechanical = pen.random.one_in(3);
        component(&mut pen, &geometry, &part, mechanical);
        entries.push((geometry, part, mechanical));
    }
    (finish(pen), entries)
}

/// The file, perhaps without the end of its last line.
fn finish(mut pen: Pen) -> Capitals {
    pen.free_lines();
    let mut file = pen.out;
    let length = file.strip_suffix(b"\r\n").or(file.strip_suffix(b"\n")).map_or(0, <[u8]>::len);
    let ends_bare = length > 0 && file[length - 1] != b'\n';
    if ends_bare && pen.random.one_in(8) {
        file.truncate(length);
    }
    Capitals { file, words: pen.words }
}
