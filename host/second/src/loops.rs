//! Loops: whether the points of a section make circles and closed paths, point by point.

use crate::numbers::FULL_TURN;

/// A point line, by its columns.
#[derive(Clone, Copy)]
pub struct Point {
    /// The loop that it belongs to.
    pub label: i64,
    /// Its x and y.
    pub place: (i64, i64),
    /// Its included angle.
    pub angle: i64,
}

/// The loops of a section so far.
#[derive(Clone, Copy)]
pub struct Loops {
    many: bool,
    current: Option<Loop>,
}

/// The loop that the last point belongs to.
#[derive(Clone, Copy)]
struct Loop {
    label: i64,
    first: (i64, i64),
    last: (i64, i64),
    lines: u64,
    circle: bool,
}

impl Loops {
    /// No point yet, in a section of one loop or of many.
    pub fn none(many: bool) -> Loops {
        Loops { many, current: None }
    }

    /// Whether there is a loop and the last one is whole.
    pub fn complete(&self) -> bool {
        self.current.is_some_and(|current| current.complete())
    }

    /// The loops with one more point, if it may follow.
    pub fn with(self, point: Point) -> Option<Loops> {
        let current = match self.current {
            Some(current) if current.label == point.label => current.with(point)?,
            _ if self.may_begin(point.label) => Loop::of(point)?,
            _ => return None,
        };
        Some(Loops { current: Some(current), ..self })
    }

    /// Whether a new loop may begin now with this label.
    fn may_begin(&self, label: i64) -> bool {
        match self.current {
            None if self.many => label == 0,
            None => label == 0 || label == 1,
            Some(current) => self.many && current.complete() && label == current.label + 1,
        }
    }
}

impl Loop {
    /// The loop that a point begins: its angle is 0.
    fn of(point: Point) -> Option<Loop> {
        let Point { label, place, angle } = point;
        (angle == 0).then_some(Loop { label, first: place, last: place, lines: 1, circle: false })
    }

    /// The loop with one more point: neighbours differ, and only a second line makes a circle.
    fn with(self, point: Point) -> Option<Loop> {
        let circle = point.angle == FULL_TURN;
        let may_follow = !self.circle && point.place != self.last && (!circle || self.lines == 1);
        may_follow.then_some(Loop { last: point.place, lines: self.lines + 1, circle, ..self })
    }

    /// A circle is whole at once, a path when three lines or more end at its first point.
    fn complete(&self) -> bool {
        self.circle || self.lines >= 3 && self.last == self.first
    }
}
