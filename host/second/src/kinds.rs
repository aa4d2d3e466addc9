//! The format as a table: the sections of document 01, the lines of each, and the fields of a line.

use crate::numbers::FULL_TURN;
use Limit::{Any, Included, NotNegative, Positive};
use Type::{Date, HolePart, Integer, Number, Reference, Text, Version, Word};

/// What a field holds.
#[derive(Clone, Copy)]
pub enum Type {
    /// One word of a list, in any letter case; its column is the word's place from 0.
    Word(&'static [&'static str]),
    /// The number 3 in any spelling.
    Version,
    /// A number within a limit.
    Number(Limit),
    /// An integer.
    Integer,
    /// A date, held as a text.
    Date,
    /// A text; its columns are start and length.
    Text,
    /// A placement's reference: a text or a name, and BOARD in a panel only.
    Reference,
    /// The part that a hole belongs to: a text or a name.
    HolePart,
}

impl Type {
    /// How many columns of a row the field fills.
    pub fn columns(self) -> usize {
        match self {
            Type::Date | Type::Text | Type::Reference | Type::HolePart => 2,
            Type::Word(_) | Type::Version | Type::Number(_) | Type::Integer => 1,
        }
    }

    /// What a text in the field means: a name's capitals whatever its letter case, or its own bytes.
    pub fn meant(self, text: &[u8]) -> &[u8] {
        let names = match self {
            Type::Reference => REFERENCES,
            Type::HolePart => HOLE_PARTS,
            _ => return text,
        };
        names
            .iter()
            .map(|name| name.as_bytes())
            .find(|name| name.eq_ignore_ascii_case(text))
            .unwrap_or(text)
    }
}

/// The sign or angle limit of a number.
#[derive(Clone, Copy)]
pub enum Limit {
    /// None.
    Any,
    /// At least 0.
    NotNegative,
    /// Above 0.
    Positive,
    /// An included angle: above -360 degrees and at most 360.
    Included,
}

impl Limit {
    /// Whether a count is within the limit.
    pub fn allows(self, count: i64) -> bool {
        match self {
            Limit::Any => true,
            Limit::NotNegative => count >= 0,
            Limit::Positive => count > 0,
            Limit::Included => -FULL_TURN < count && count <= FULL_TURN,
        }
    }
}

/// The fields of a line, its keyword or PROP left off.
pub type Layout = &'static [Type];

/// One section: its name, whether an owner stands in its opening line, and its data lines.
pub struct Section {
    name: &'static str,
    opening: Layout,
    /// How the data lines follow each other.
    pub shape: Shape,
    /// The data lines, in the order of their kinds.
    pub lines: &'static [Layout],
}

impl Section {
    /// The place from 1 of the line that follows the points, if the section has one.
    pub fn property(&self) -> Option<usize> {
        match self.shape {
            Shape::Loops { point, .. } if point < self.lines.len() => Some(point + 1),
            _ => None,
        }
    }
}

/// How the data lines of a section follow each other.
#[derive(Clone, Copy)]
pub enum Shape {
    /// Each line once, the second not in a library.
    Header,
    /// Any number of groups, each of all lines in order.
    Groups,
    /// The lines before the point line once each, then loops, then any number of the line after it.
    Loops {
        /// The place of the point line from 1.
        point: usize,
        /// Whether there may be many loops.
        many: bool,
    },
}

/// The file types, of which two are asked for by name.
const FILE_TYPES: &[&str] = &["BOARD_FILE", "PANEL_FILE", "LIBRARY_FILE"];
/// The place of a board's file type.
pub const BOARD_FILE: i64 = 0;
/// The place of a library's file type.
pub const LIBRARY_FILE: i64 = 2;

const UNITS: &[&str] = &["MM", "THOU"];
const OWNERS: &[&str] = &["MCAD", "ECAD", "UNOWNED"];
const FACES: &[&str] = &["TOP", "BOTTOM"];
const SIDES: &[&str] = &["TOP", "BOTTOM", "BOTH"];
const LAYERS: &[&str] = &["TOP", "BOTTOM", "BOTH", "INNER", "ALL"];
const PLATINGS: &[&str] = &["PTH", "NPTH"];
const STATUSES: &[&str] = &["PLACED", "UNPLACED", "MCAD", "ECAD"];

/// The reference of a placement that wants a mechanical entry; also a hole's part.
pub const NOREFDES: &str = "NOREFDES";
/// The reference of a placement that wants no entry, in panels only; also a hole's part.
pub const BOARD_NAME: &str = "BOARD";
const REFERENCES: &[&str] = &[NOREFDES, BOARD_NAME];
const HOLE_PARTS: &[&str] = &[NOREFDES, BOARD_NAME, "PANEL"];

const LENGTH: Type = Number(Any);
const POINT: Layout = &[Integer, LENGTH, LENGTH, Number(Included)];
const FILE: Layout = &[Word(FILE_TYPES), Version, Text, Date, Integer];
const BOARD: Layout = &[Text, Word(UNITS)];
const OTHER: Layout = &[Text, Number(NotNegative), Word(FACES)];
const ROUTE: Layout = &[Word(LAYERS)];
const PLACE: Layout = &[Word(SIDES), Number(NotNegative)];
const REGION: Layout = &[Word(SIDES), Text];
const HOLE: Layout =
    &[Number(Positive), LENGTH, LENGTH, Word(PLATINGS), HolePart, Text, Word(OWNERS)];
const NOTE: Layout = &[LENGTH, LENGTH, LENGTH, LENGTH, Text];
const PACKAGE: Layout = &[Text, Text, Reference];
const PLACED: Layout =
    &[LENGTH, LENGTH, Number(NotNegative), Number(Any), Word(FACES), Word(STATUSES)];
const COMPONENT: Layout = &[Text, Text, Word(UNITS), LENGTH];
const PROPERTY: Layout = &[Text, Text];

const MANY: Shape = Shape::Loops { point: 2, many: true };
const ONE: Shape = Shape::Loops { point: 2, many: false };
const ONE_AT_ONCE: Shape = Shape::Loops { point: 1, many: false };

const fn owned(name: &'static str, shape: Shape, lines: &'static [Layout]) -> Section {
    Section { name, opening: &[Word(OWNERS)], shape, lines }
}

const fn plain(name: &'static str, shape: Shape, lines: &'static [Layout]) -> Section {
    Section { name, opening: &[], shape, lines }
}

/// How many sections there are.
pub const SECTIONS: usize = 15;

/// The sections, in the order of their numbers from 1.
static TABLE: [Section; SECTIONS] = [
    plain("HEADER", Shape::Header, &[FILE, BOARD]),
    owned("BOARD_OUTLINE", MANY, &[&[LENGTH], POINT]),
    owned("PANEL_OUTLINE", MANY, &[&[LENGTH], POINT]),
    owned("OTHER_OUTLINE", MANY, &[OTHER, POINT]),
    owned("ROUTE_OUTLINE", ONE, &[ROUTE, POINT]),
    owned("PLACE_OUTLINE", ONE, &[PLACE, POINT]),
    owned("ROUTE_KEEPOUT", ONE, &[ROUTE, POINT]),
    owned("VIA_KEEPOUT", ONE_AT_ONCE, &[POINT]),
    owned("PLACE_KEEPOUT", ONE, &[PLACE, POINT]),
    owned("PLACE_REGION", ONE, &[REGION, POINT]),
    plain("DRILLED_HOLES", Shape::Groups, &[HOLE]),
    plain("NOTES", Shape::Groups, &[NOTE]),
    plain("PLACEMENT", Shape::Groups, &[PACKAGE, PLACED]),
    plain("ELECTRICAL", ONE, &[COMPONENT, POINT, PROPERTY]),
    plain("MECHANICAL", ONE, &[COMPONENT, POINT]),
];

/// A section by its number.
pub fn section(number: usize) -> &'static Section {
    &TABLE[number - 1]
}

/// What a line is in its section.
#[derive(Clone, Copy, PartialEq, Eq)]
pub enum Role {
    /// The line that opens the section.
    Opening,
    /// A data line, by its place from 1 among those of the section.
    Data(usize),
    /// The line that closes the section.
    Closing,
}

/// A kind of line that the table holds.
#[derive(Clone, Copy, PartialEq, Eq)]
pub struct Kind {
    /// The section's number, from 1.
    pub section: usize,
    /// What the line is in it.
    pub role: Role,
}

impl Kind {
    /// The kind of a data line of a section.
    pub fn data(section: usize, place: usize) -> Kind {
        Kind { section, role: Role::Data(place) }
    }

    /// The kind that a row's first column names, if any.
    pub fn of_number(number: i64) -> Option<Kind> {
        let number = usize::try_from(number).ok()?;
        let section = number / 10;
        let lines = TABLE.get(section.checked_sub(1)?)?.lines;
        let role = match number % 10 {
            0 => Role::Opening,
            9 => Role::Closing,
            place if place <= lines.len() => Role::Data(place),
            _ => return None,
        };
        Some(Kind { section, role })
    }

    /// The kind that a keyword names, whatever its letter case.
    pub fn of_keyword(keyword: &[u8]) -> Option<Kind> {
        let name = keyword.strip_prefix(b".")?;
        let (role, name) = match name.get(..4) {
            Some(end) if end.eq_ignore_ascii_case(b"END_") => (Role::Closing, &name[4..]),
            _ => (Role::Opening, name),
        };
        let named = |section: &Section| section.name.as_bytes().eq_ignore_ascii_case(name);
        Some(Kind { section: TABLE.iter().position(named)? + 1, role })
    }

    /// The number that a row's first column holds.
    pub fn number(self) -> i64 {
        let place = match self.role {
            Role::Opening => 0,
            Role::Data(place) => place,
            Role::Closing => 9,
        };
        (10 * self.section + place) as i64
    }

    /// The section that the line stands in.
    pub fn table(self) -> &'static Section {
        section(self.section)
    }

    /// The line's fields, its keyword or PROP left off.
    pub fn layout(self) -> Layout {
        match self.role {
            Role::Opening => self.table().opening,
            Role::Data(place) => self.table().lines[place - 1],
            Role::Closing => &[],
        }
    }

    /// Whether the line is a PROP line: the one that follows its section's points.
    pub fn is_property(self) -> bool {
        match self.role {
            Role::Data(place) => self.table().property() == Some(place),
            Role::Opening | Role::Closing => false,
        }
    }

    /// The parts of the first field if it is fixed, a keyword or PROP; otherwise none.
    pub fn lead(self) -> Option<[&'static str; 2]> {
        match self.role {
            Role::Opening => Some([".", self.table().name]),
            Role::Closing => Some([".END_", self.table().name]),
            Role::Data(_) => self.is_property().then_some([PROP, ""]),
        }
    }
}

/// The word that begins a property's line, in any letter case.
pub const PROP: &str = "PROP";
