//! The kinds of rows as a table: the sections, the records of each, and the fields of a record by their names.

/// What a field holds, and so how its columns are read.
#[derive(Debug, Clone, Copy)]
pub enum Type {
    /// One word of a list, by its place from 0.
    Word(&'static [&'static str]),
    /// The version, which is 3.
    Version,
    /// A count of hundred-thousandths.
    Number,
    /// A whole number.
    Integer,
    /// A text or date, by its start and length.
    Text,
}

/// A field of a record.
#[derive(Debug, Clone, Copy)]
pub struct Field {
    /// Its name.
    pub name: &'static str,
    /// What it holds.
    pub holds: Type,
    /// Whether it tells the record from its neighbours of the same kind.
    pub is_key: bool,
}

impl Field {
    /// How many columns of a row it fills.
    pub fn columns(self) -> usize {
        match self.holds {
            Type::Text => 2,
            Type::Word(_) | Type::Version | Type::Number | Type::Integer => 1,
        }
    }

    const fn key(self) -> Field {
        Field { is_key: true, ..self }
    }
}

/// A data line: what it is called, and its fields in the order of their columns.
#[derive(Debug, Clone, Copy)]
struct Layout {
    noun: &'static str,
    fields: &'static [Field],
}

/// A section: its name, the fields of its opening line, and its data lines in the order of their kinds.
struct Section {
    name: &'static str,
    opening: &'static [Field],
    lines: &'static [Layout],
}

const fn field(name: &'static str, holds: Type) -> Field {
    Field { name, holds, is_key: false }
}

const fn word(name: &'static str, list: &'static [&'static str]) -> Field {
    field(name, Type::Word(list))
}

const fn number(name: &'static str) -> Field {
    field(name, Type::Number)
}

const fn integer(name: &'static str) -> Field {
    field(name, Type::Integer)
}

const fn text(name: &'static str) -> Field {
    field(name, Type::Text)
}

const FILE_TYPES: &[&str] = &["BOARD_FILE", "PANEL_FILE", "LIBRARY_FILE"];
const FACES: &[&str] = &["TOP", "BOTTOM"];
const SIDES: &[&str] = &["TOP", "BOTTOM", "BOTH"];
const LAYERS: &[&str] = &["TOP", "BOTTOM", "BOTH", "INNER", "ALL"];
const PLATINGS: &[&str] = &["PTH", "NPTH"];
const STATUSES: &[&str] = &["PLACED", "UNPLACED", "MCAD", "ECAD"];
const UNIT: Field = word("unit", &["MM", "THOU"]);
const OWNER: Field = word("owner", &["MCAD", "ECAD", "UNOWNED"]);
const SIDE: Field = word("side", SIDES);
const THICKNESS: Field = number("thickness");
const HEIGHT: Field = number("height");
const X: Field = number("x");
const Y: Field = number("y");

const fn layout(noun: &'static str, fields: &'static [Field]) -> Layout {
    Layout { noun, fields }
}

const FILE: Layout = layout(
    "header",
    &[
        word("file type", FILE_TYPES),
        field("version", Type::Version),
        text("system"),
        text("date"),
        integer("file version"),
    ],
);
const BOARD: Layout = layout("header", &[text("board name"), UNIT]);
const POINT: Layout = layout("point", &[integer("label"), X, Y, number("angle")]);
const WHOLE: Layout = layout("outline", &[THICKNESS]);
const OTHER: Layout =
    layout("outline", &[text("identifier").key(), THICKNESS, word("side", FACES)]);
const ROUTE: Layout = layout("area", &[word("layers", LAYERS)]);
const PLACE: Layout = layout("area", &[SIDE, HEIGHT]);
const REGION: Layout = layout("area", &[SIDE, text("group").key()]);
const HOLE: Layout = layout(
    "hole",
    &[
        number("diameter"),
        X.key(),
        Y.key(),
        word("plating", PLATINGS),
        text("part"),
        text("hole type"),
        OWNER,
    ],
);
const NOTE: Layout = layout("note", &[X, Y, HEIGHT, number("length"), text("text").key()]);
const PLACEMENT: Layout =
    layout("placement", &[text("package"), text("part"), text("reference").key()]);
const POSITION: Layout = layout(
    "position",
    &[X, Y, number("offset"), number("rotation"), word("side", FACES), word("status", STATUSES)],
);
const COMPONENT: Layout =
    layout("component", &[text("geometry").key(), text("part").key(), UNIT, HEIGHT]);
const PROPERTY: Layout = layout("property", &[text("property name").key(), text("property value")]);

const fn owned(name: &'static str, lines: &'static [Layout]) -> Section {
    Section { name, opening: &[OWNER], lines }
}

const fn plain(name: &'static str, lines: &'static [Layout]) -> Section {
    Section { name, opening: &[], lines }
}

/// The sections, in the order of their numbers from 1.
static SECTIONS: [Section; 15] = [
    plain("HEADER", &[FILE, BOARD]),
    owned("BOARD_OUTLINE", &[WHOLE, POINT]),
    owned("PANEL_OUTLINE", &[WHOLE, POINT]),
    owned("OTHER_OUTLINE", &[OTHER, POINT]),
    owned("ROUTE_OUTLINE", &[ROUTE, POINT]),
    owned("PLACE_OUTLINE", &[PLACE, POINT]),
    owned("ROUTE_KEEPOUT", &[ROUTE, POINT]),
    owned("VIA_KEEPOUT", &[POINT]),
    owned("PLACE_KEEPOUT", &[PLACE, POINT]),
    owned("PLACE_REGION", &[REGION, POINT]),
    plain("DRILLED_HOLES", &[HOLE]),
    plain("NOTES", &[NOTE]),
    plain("PLACEMENT", &[PLACEMENT, POSITION]),
    plain("ELECTRICAL", &[COMPONENT, POINT, PROPERTY]),
    plain("MECHANICAL", &[COMPONENT, POINT]),
];

/// The kind of a row, as its first column has it.
#[derive(Debug, Clone, Copy, PartialEq, Eq, Hash)]
pub struct Kind(pub i64);

impl Kind {
    /// The first line of a placement: package, part and reference.
    pub const PLACEMENT: Kind = Kind(131);
    /// The second line of a placement: where it stands.
    pub const POSITION: Kind = Kind(132);

    /// Whether the line opens a section.
    pub fn opens(self) -> bool {
        self.0 % 10 == 0
    }

    fn closes(self) -> bool {
        self.0 % 10 == 9
    }

    /// Whether the line stands once at the head of its section and names it.
    pub fn is_title(self) -> bool {
        matches!(self.0, 41 | 101 | 141 | 151)
    }

    /// The name of the section that the line stands in.
    pub fn section(self) -> &'static str {
        self.in_table().map_or("", |section| section.name)
    }

    /// What the line is: `.NOTES`, `hole`.
    pub fn noun(self) -> String {
        match self.data() {
            Some(layout) => layout.noun.to_string(),
            None if self.closes() => format!(".END_{}", self.section()),
            None => format!(".{}", self.section()),
        }
    }

    /// The line's fields, its keyword or PROP left off.
    pub fn fields(self) -> &'static [Field] {
        match self.data() {
            Some(layout) => layout.fields,
            None if self.opens() => self.in_table().map_or(&[], |section| section.opening),
            None => &[],
        }
    }

    fn data(self) -> Option<&'static Layout> {
        let place = usize::try_from(self.0 % 10).ok()?.checked_sub(1)?;
        self.in_table()?.lines.get(place)
    }

    fn in_table(self) -> Option<&'static Section> {
        SECTIONS.get(usize::try_from(self.0 / 10).ok()?.checked_sub(1)?)
    }
}
