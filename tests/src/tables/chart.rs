//! The text of a table, from the paper's words: a line of well-known text for each live cell.

use super::worlds::Cell;

/// Metres in a unit.
const UNIT: i32 = 10;

/// The longest line with its line feed.
pub const LONGEST_LINE: usize = 66;

/// Where a cell is, x and y in metres, and at which minute.
pub type Point = [i32; 3];

/// At the clock, and at expiry, which for a live cell is after it.
pub fn points(clock: i32, cell: &Cell) -> [Point; 2] {
    assert!(clock < cell.expiry, "no line for a cell whose life is over");
    [clock, cell.expiry].map(|minute| [UNIT * cell.x_at(minute), UNIT * cell.y_at(minute), minute])
}

pub fn line(clock: i32, cell: &Cell) -> String {
    let [[x1, y1, m1], [x2, y2, m2]] = points(clock, cell);
    format!("LINESTRING M ({x1} {y1} {m1}, {x2} {y2} {m2})\n")
}

/// The lines of live cells, one after the other.
pub fn text(clock: i32, live: &[Cell]) -> Vec<u8> {
    live.iter().flat_map(|cell| line(clock, cell).into_bytes()).collect()
}
