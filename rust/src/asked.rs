//! What goes into calls and comes out of them, as plain numbers.

use crate::calls::RECORD;

/// A cell as radar saw it.
///
/// Positions are in units of 10 m, velocities in units a minute, minutes are whole minutes of the day.
#[derive(Debug, Clone, Copy, PartialEq, Eq, Hash)]
pub struct Report {
    /// The cell's identifier, 1 to 2,147,483,647.
    pub id: i32,
    /// Where it was at the report's minute, -100,000 to 100,000.
    pub x: i32,
    /// Where it was at the report's minute, -100,000 to 100,000.
    pub y: i32,
    /// How it moves, -512 to 512.
    pub vx: i32,
    /// How it moves, -512 to 512.
    pub vy: i32,
    /// When it was seen, 0 to 1,440; at 1,440 it is refused, as no expiry is after that.
    pub minute: i32,
    /// The minute from which on its track says nothing, 0 to 1,440, after the report's minute.
    pub expiry: i32,
}

/// The edges of a rectangle, which belong to it. Each is -100,000 to 100,000.
#[derive(Debug, Clone, Copy, PartialEq, Eq, Hash)]
pub struct Rectangle {
    /// The least x.
    pub xlow: i32,
    /// The greatest x.
    pub xhigh: i32,
    /// The least y.
    pub ylow: i32,
    /// The greatest y.
    pub yhigh: i32,
}

/// A query by a rectangle that stands still.
#[derive(Debug, Clone, Copy, PartialEq, Eq, Hash)]
pub struct Window {
    /// The first minute asked about, 0 to 1,440.
    pub start: i32,
    /// The last minute asked about, 0 to 1,440; equal to the start it is that instant alone.
    pub end: i32,
    /// Where.
    pub rectangle: Rectangle,
}

/// A query by a rectangle that goes straight from the first, at the start, to the last, at the end. Between
/// them its edges stand at fractions of a unit, and those count as well.
#[derive(Debug, Clone, Copy, PartialEq, Eq, Hash)]
pub struct Moving {
    /// The first minute asked about, 0 to 1,440.
    pub start: i32,
    /// The last minute asked about, 0 to 1,440, after the start.
    pub end: i32,
    /// The rectangle at the start.
    pub first: Rectangle,
    /// The rectangle at the end.
    pub last: Rectangle,
}

/// A cell as a table keeps it: a sheet record's six numbers, in the record's order.
#[derive(Debug, Clone, Copy, PartialEq, Eq, Hash)]
pub struct Cell {
    /// Its identifier.
    pub id: i32,
    /// Where its track is at minute 0.
    pub x: i32,
    /// How it moves.
    pub vx: i32,
    /// Where its track is at minute 0.
    pub y: i32,
    /// How it moves.
    pub vy: i32,
    /// The minute from which on its track says nothing.
    pub expiry: i32,
}

impl Cell {
    pub(crate) fn of_record([id, x, vx, y, vy, expiry]: [i32; RECORD]) -> Cell {
        Cell { id, x, vx, y, vy, expiry }
    }

    /// Where its straight track is at a minute, x and y. It says nothing of the cell from its expiry on.
    ///
    /// ```
    /// use bradawlet::Cell;
    ///
    /// let cell = Cell { id: 7, x: 50, vx: 5, y: 230, vy: -3, expiry: 40 };
    /// assert_eq!(cell.at(10), (100, 200));
    /// ```
    pub fn at(&self, minute: i32) -> (i64, i64) {
        let at = |position: i32, velocity: i32| i64::from(position) + i64::from(velocity) * i64::from(minute);
        (at(self.x, self.vx), at(self.y, self.vy))
    }
}

/// The cells that meet a query.
#[derive(Debug, Clone, Copy, PartialEq, Eq, Hash)]
pub struct Hits<List> {
    /// Their identifiers, in rising order: a list of its own (`Vec<i32>`), or the first places of the one
    /// that was lent (`&[i32]`).
    pub ids: List,
    /// How many nodes of the tree were opened to find them.
    pub opened: usize,
}
