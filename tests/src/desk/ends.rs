//! Lines that have to do with the very minute of an expiry, by name.

use super::line::{read, Line};
use super::model::{Desk, CAPACITY};
use crate::meeting::Instant;
use crate::question::{Query, Report, MINUTE};
use crate::tables::scan::body;
use crate::tables::worlds::Cell;

pub const NO_LIFE: &str = "cell: expires in its own minute";
pub const AT_LAST: &str = "cell: at 1440";
pub const SUCCEEDS_ITSELF: &str = "cell: in the minute of its own expiry";
pub const SUCCEEDS_ANOTHER: &str = "cell: a new one, full at the clock, and another expires in that minute";
pub const DROPPED_LATE: &str = "drop: in the minute of the expiry";
pub const ASKED_LATE: &str = "when: at the expiry, where the cell then is";
pub const TOUCHED_LATE: &str = "query: the cell comes there at its expiry";

/// Before the line is answered.
pub fn name(desk: &Desk, line: &[u8]) -> Option<&'static str> {
    let cells = &desk.model.cells;
    match read(line)? {
        Line::Cell(report) => name_of_report(cells, &report),
        Line::Drop { id, minute } => {
            cells.iter().any(|cell| cell.id == id && cell.expiry == minute).then_some(DROPPED_LATE)
        }
        Line::Query { query, .. } => cells.iter().find_map(|cell| touched_late(cell, &query)),
    }
}

fn name_of_report(cells: &[Cell], report: &Report) -> Option<&'static str> {
    let ends = |cell: &&Cell| cell.expiry == report.minute;
    if report.minute == MINUTE {
        Some(AT_LAST)
    } else if report.expiry == report.minute {
        Some(NO_LIFE)
    } else if cells.iter().filter(ends).any(|cell| cell.id == report.id) {
        Some(SUCCEEDS_ITSELF)
    } else if cells.iter().any(|cell| cell.id == report.id) {
        None
    } else if cells.len() as i32 == CAPACITY && cells.iter().filter(ends).count() > 0 {
        Some(SUCCEEDS_ANOTHER)
    } else {
        None
    }
}

/// The cell is in the rectangle at its expiry, which is an instant of the query, and not sooner.
fn touched_late(cell: &Cell, query: &Query) -> Option<&'static str> {
    let (expiry, moved) = (Instant::whole(cell.expiry), body(cell));
    if !expiry.is_in(query) || !moved.touches_at(query, expiry) || moved.meets(query) {
        return None;
    }
    Some(if query.start == query.end { ASKED_LATE } else { TOUCHED_LATE })
}
