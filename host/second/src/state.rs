//! Where a file stands between two lines: the sections seen, the open one, and what may come next.

use crate::kinds::{section, Kind, Role, Shape, BOARD_FILE, LIBRARY_FILE, SECTIONS};
use crate::loops::{Loops, Point};
use crate::reply::Fault;
use crate::rows::Row;

const HEADER: usize = 1;
const BOARD_OUTLINE: usize = 2;
const PANEL_OUTLINE: usize = 3;
const OTHER_OUTLINE: usize = 4;
const PLACE_REGION: usize = 10;
const DRILLED_HOLES: usize = 11;
const NOTES: usize = 12;
const PLACEMENT: usize = 13;
const ELECTRICAL: usize = 14;
const MECHANICAL: usize = 15;

/// What the lines so far have made of a file.
pub struct State {
    file_type: Option<i64>,
    seen: [bool; SECTIONS + 1],
    open: Option<Open>,
}

/// The open section and how far it has come.
#[derive(Clone, Copy)]
struct Open {
    section: usize,
    step: Step,
}

/// What may come next in a section.
#[derive(Clone, Copy)]
enum Step {
    /// The data line at this place from 1.
    Next(usize),
    /// Points, whose line has this place.
    Points(usize, Loops),
    /// PROP lines only.
    Properties,
    /// No data line.
    Full,
}

impl State {
    /// Before the first line.
    pub fn new() -> State {
        State { file_type: None, seen: [false; SECTIONS + 1], open: None }
    }

    /// Whether the header has named the file a board.
    pub fn is_board(&self) -> bool {
        self.file_type == Some(BOARD_FILE)
    }

    /// Whether a section is open, so that no comment or blank line may stand.
    pub fn inside(&self) -> bool {
        self.open.is_some()
    }

    /// Whether the file may end here.
    pub fn complete(&self) -> bool {
        self.open.is_none() && (self.file_type == Some(LIBRARY_FILE) || self.seen[PLACEMENT])
    }

    /// The kind that a data line has here, by its place and by whether it begins with PROP.
    pub fn data_kind(&self, prop: bool) -> Option<Kind> {
        let Open { section: number, step } = self.open?;
        let property = section(number).property().filter(|_| prop);
        let place = match (step, property) {
            (Step::Next(place), _) => place,
            (Step::Points(..) | Step::Properties, Some(place)) => place,
            (Step::Points(place, _), None) => place,
            (Step::Properties, None) | (Step::Full, _) => return None,
        };
        Some(Kind::data(number, place))
    }

    /// Whether a line of this kind may stand here, its fields and the loop rules aside.
    pub fn may_stand(&self, kind: Kind) -> bool {
        match kind.role {
            Role::Opening => self.may_open(kind.section),
            Role::Data(_) => self.data_kind(kind.is_property()) == Some(kind),
            Role::Closing => self.may_close(kind.section),
        }
    }

    /// The order of sections: a library's components, or what a board or panel is made of.
    fn may_open(&self, number: usize) -> bool {
        self.open.is_none()
            && match self.file_type {
                None => number == HEADER,
                Some(LIBRARY_FILE) => matches!(number, ELECTRICAL | MECHANICAL),
                Some(_) => self.may_open_on_board(number),
            }
    }

    /// Outline first and once, placement last and once, holes and notes once, the others freely.
    fn may_open_on_board(&self, number: usize) -> bool {
        let outline = if self.is_board() { BOARD_OUTLINE } else { PANEL_OUTLINE };
        if !self.seen[outline] {
            return number == outline;
        }
        !self.seen[PLACEMENT]
            && match number {
                OTHER_OUTLINE..=PLACE_REGION | PLACEMENT => true,
                DRILLED_HOLES | NOTES => !self.seen[number],
                _ => false,
            }
    }

    /// A section may close unless a data line that must come is missing.
    fn may_close(&self, number: usize) -> bool {
        match self.open {
            Some(open) if open.section == number => match open.step {
                Step::Next(place) => place == 1 && matches!(section(number).shape, Shape::Groups),
                Step::Points(..) | Step::Properties | Step::Full => true,
            },
            _ => false,
        }
    }

    /// Moves on by a line that may stand here and has good fields; only a loop rule refuses it.
    pub fn take(&mut self, kind: Kind, row: &Row) -> Result<(), Fault> {
        if kind == Kind::data(HEADER, 1) {
            self.file_type = Some(row[1]);
        }
        let step = self.open.map_or(Step::Full, |open| open.step);
        let step = match (kind.role, step) {
            (Role::Opening, _) => Some(self.step_at(kind.section, 1)),
            (Role::Closing, Step::Points(_, loops)) if !loops.complete() => {
                return Err(Fault::Loop)
            }
            (Role::Closing, _) => None,
            (Role::Data(place), Step::Next(_)) => Some(self.step_at(kind.section, place + 1)),
            (Role::Data(_), Step::Points(place, loops)) => {
                Some(on_points(kind, place, loops, row)?)
            }
            (Role::Data(_), step) => Some(step),
        };
        self.seen[kind.section] = true;
        self.open = step.map(|step| Open { section: kind.section, step });
        Ok(())
    }

    /// What may come when the data lines before a place, from 1, have come.
    fn step_at(&self, number: usize, place: usize) -> Step {
        let lines = section(number).lines.len();
        match section(number).shape {
            Shape::Header if place > lines => Step::Full,
            Shape::Header if place > 1 && self.file_type == Some(LIBRARY_FILE) => Step::Full,
            Shape::Groups if place > lines => Step::Next(1),
            Shape::Loops { point, many } if place == point => {
                Step::Points(place, Loops::none(many))
            }
            _ => Step::Next(place),
        }
    }
}

/// The step after a point or a PROP line that comes among points.
fn on_points(kind: Kind, place: usize, loops: Loops, row: &Row) -> Result<Step, Fault> {
    if kind.is_property() {
        return if loops.complete() { Ok(Step::Properties) } else { Err(Fault::Loop) };
    }
    let point = Point { label: row[1], place: (row[2], row[3]), angle: row[4] };
    let loops = loops.with(point).ok_or(Fault::Loop)?;
    Ok(Step::Points(place, loops))
}
