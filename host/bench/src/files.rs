//! The files that are timed: boards, panels and libraries with what such files mostly hold, the same at every run.

use generate::Random;

use crate::parts::part;
use crate::sections::{area, component, header, hole, line, outline, point};
use crate::sheet::{Sheet, ONE};

/// Bytes in a mebibyte.
pub const MIB: usize = 1 << 20;
/// The size limit of a file.
pub const LARGEST: usize = quayladle::LARGEST_FILE;
/// How many components the largest library has; smaller ones have their share.
pub const MOST_COMPONENTS: usize = 50_000;

const CLOSES_PLACEMENT: &str = ".END_PLACEMENT";

/// A file with placements.
#[derive(Debug, Clone, Copy, PartialEq, Eq)]
pub enum Placed {
    /// A board.
    Board,
    /// A panel.
    Panel,
}

/// A board or panel of a size: a tenth areas, a fifth drilled holes, the rest placements of the first so many parts.
pub fn placed(kind: Placed, size: usize, parts: usize) -> Sheet {
    let mut maker = Maker::begin(kind, size, parts);
    let end = size - CLOSES_PLACEMENT.len() - 1;
    maker.sheet.fill(end, |sheet| maker.placing.place(sheet));
    maker.finish()
}

/// A board of so many placements of the first so many parts, with as much besides as one of that size has.
pub fn board_of(placements: usize, parts: usize) -> Sheet {
    const PLACEMENT_BYTES: usize = 77;
    let mut maker = Maker::begin(Placed::Board, placements * PLACEMENT_BYTES * 10 / 7, parts);
    for _ in 0..placements {
        maker.placing.place(&mut maker.sheet);
    }
    maker.finish()
}

/// The number of components that a library of a size has.
pub fn components_in(size: usize) -> usize {
    size * MOST_COMPONENTS / LARGEST
}

/// A library of a size with the first so many parts; properties fill up what outlines leave.
pub fn library(size: usize, components: usize) -> Sheet {
    let mut random = Random::new(components as u64);
    let mut sheet = Sheet::default();
    header(&mut sheet, "LIBRARY_FILE");
    let begin = sheet.file.len();
    for place in 0..components {
        let end = begin + (size - begin) * (place + 1) / components;
        component(&mut sheet, &mut random, &part(place), end);
    }
    sheet
}

/// A library of a size with as many components as it can hold: short names, a circle each, no byte more than that takes.
pub fn crowded(size: usize) -> Vec<u8> {
    let mut file = b".HEADER\nLIBRARY_FILE 3.0 s 2026/11/15.12:00:00 1\n.END_HEADER\n".to_vec();
    for place in 0.. {
        let component =
            format!(".ELECTRICAL\n{place:X} p MM 0\n0 0 0 0\n0 1 0 360\n.END_ELECTRICAL\n");
        if file.len() + component.len() > size {
            break;
        }
        file.extend(component.into_bytes());
    }
    file
}

/// A board or panel on its way.
struct Maker {
    sheet: Sheet,
    placing: Placing,
}

impl Maker {
    /// Everything before the placements.
    fn begin(kind: Placed, size: usize, parts: usize) -> Maker {
        let mut random = Random::new(size as u64);
        let mut sheet = Sheet::default();
        let (file_type, name) = match kind {
            Placed::Board => ("BOARD_FILE", "BOARD_OUTLINE"),
            Placed::Panel => ("PANEL_FILE", "PANEL_OUTLINE"),
        };
        header(&mut sheet, file_type);
        outline(&mut sheet, &mut random, name);
        sheet.fill(size / 10, |sheet| area(sheet, &mut random));
        line(&mut sheet, ".DRILLED_HOLES");
        sheet.fill(size * 3 / 10, |sheet| hole(sheet, &mut random));
        line(&mut sheet, ".END_DRILLED_HOLES");
        line(&mut sheet, ".PLACEMENT");
        Maker { sheet, placing: Placing { random, kind, parts, count: 0 } }
    }

    fn finish(mut self) -> Sheet {
        line(&mut self.sheet, CLOSES_PLACEMENT);
        self.sheet
    }
}

/// What placements are drawn from.
struct Placing {
    random: Random,
    kind: Placed,
    parts: usize,
    count: usize,
}

impl Placing {
    /// Writes one placement, with a reference of its own unless the part is mechanical.
    fn place(&mut self, sheet: &mut Sheet) {
        self.count += 1;
        let part = part(self.random.below(self.parts));
        let reference = match part.letter {
            _ if self.kind == Placed::Panel && self.count % 500 == 0 => "BOARD".to_string(),
            Some(letter) => format!("{letter}{}", self.count),
            None => "NOREFDES".to_string(),
        };
        sheet.text(part.package);
        sheet.text(&part.number);
        sheet.text(&reference);
        sheet.end();
        point(sheet, &mut self.random);
        sheet.number(0);
        sheet.number(self.random.pick(&[0, 90, 180, 270]) * ONE);
        sheet.word(self.random.pick(&["TOP", "TOP", "TOP", "BOTTOM"]));
        sheet.word(self.random.pick(&["PLACED", "PLACED", "PLACED", "MCAD", "ECAD"]));
        sheet.end();
    }
}

#[cfg(test)]
mod tests {
    use super::*;

    /// The kinds of a placement's first line and of a component's.
    const PLACEMENT: [i64; 1] = [131];
    const COMPONENT: [i64; 2] = [141, 151];

    /// How many rows of some kinds an accepted file has.
    fn count_of(file: &[u8], kinds: &[i64]) -> usize {
        let rows = second::rows(file).expect("an accepted file");
        rows.iter().filter(|row| kinds.contains(&row[0])).count()
    }

    /// What every made file is: accepted, full, and the same as its copy, which is no longer.
    fn is_made(sheet: &Sheet, size: usize, left: usize) {
        assert_eq!(second::check(&sheet.file).number, 0);
        assert!((size - left..=size).contains(&sheet.file.len()), "{}", sheet.file.len());
        let (reply, which) = second::same(&sheet.file, &sheet.copy);
        assert_eq!((reply.number, reply.count, which), (0, 1, 0));
        assert!(sheet.copy.len() <= sheet.file.len() && sheet.copy != sheet.file);
        assert_eq!(second::canon(&sheet.file).map(|text| text.len()), Ok(sheet.file.len()));
        let (reply, which) = second::same(&sheet.file, &generate::windows_copy(&sheet.file));
        assert_eq!((reply.number, reply.count, which), (0, 1, 0), "the Windows copy");
    }

    #[test]
    fn boards_and_panels_are_accepted_and_mostly_placements() {
        for kind in [Placed::Board, Placed::Panel] {
            let sheet = placed(kind, MIB, 700);
            is_made(&sheet, MIB, 100);
            assert!(count_of(&sheet.file, &PLACEMENT) * 77 > MIB * 6 / 10);
        }
    }

    #[test]
    fn boards_have_the_placements_asked_for() {
        let sheet = board_of(3_125, 1_250);
        is_made(&sheet, sheet.file.len(), 0);
        assert_eq!(count_of(&sheet.file, &PLACEMENT), 3_125);
    }

    #[test]
    fn libraries_have_the_components_asked_for() {
        for size in [MIB / 16, MIB / 4, MIB] {
            let sheet = library(size, components_in(size));
            is_made(&sheet, size, 60);
            assert_eq!(count_of(&sheet.file, &COMPONENT), components_in(size));
        }
        assert_eq!(components_in(LARGEST), MOST_COMPONENTS);
    }

    #[test]
    fn a_crowded_library_is_full_of_components() {
        let file = crowded(MIB);
        assert!((MIB - 60..=MIB).contains(&file.len()), "{}", file.len());
        assert!(count_of(&file, &COMPONENT) * 60 > MIB);
    }

    #[test]
    fn every_placement_has_its_entry() {
        let library = library(MIB / 4, components_in(MIB / 4));
        for kind in [Placed::Board, Placed::Panel] {
            let board = placed(kind, MIB, components_in(MIB / 4));
            let placements = count_of(&board.file, &PLACEMENT) as u64;
            let (reply, which) = second::judge(&board.file, &library.file);
            assert_eq!((reply.number, reply.count, which), (0, placements, 0));
        }
    }
}
