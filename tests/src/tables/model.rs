//! What a report and a drop must do, from the paper's words: a clock and a list of cells.

use super::worlds::Cell;
use crate::question::{Report, RANGES};
use crate::refusal::{BEFORE_CLOCK, EXPIRES_FIRST, FULL, NOT_LIVE, OUT_OF_RANGE};

/// A call that changes a table.
#[derive(Clone, Copy, Debug)]
pub enum Change {
    Report(Report),
    Drop { id: i32, minute: i32 },
}

const IDENTIFIER_AT: usize = 0;
const MINUTE_AT: usize = 5;

impl Change {
    pub fn id(&self) -> i32 {
        match *self {
            Change::Report(report) => report.id,
            Change::Drop { id, .. } => id,
        }
    }

    pub fn minute(&self) -> i32 {
        match *self {
            Change::Report(report) => report.minute,
            Change::Drop { minute, .. } => minute,
        }
    }

    pub fn out_of_range(&self) -> bool {
        let outside = |number: i32, at: usize| number < RANGES[at].0 || number > RANGES[at].1;
        match self {
            Change::Report(report) => {
                report.numbers().iter().enumerate().any(|(at, &number)| outside(number, at))
            }
            Change::Drop { id, minute } => outside(*id, IDENTIFIER_AT) || outside(*minute, MINUTE_AT),
        }
    }
}

#[derive(Clone)]
pub struct Model {
    pub capacity: i32,
    pub clock: i32,
    /// The cells that are live at the clock.
    pub cells: Vec<Cell>,
}

impl Model {
    pub fn of(capacity: i32, clock: i32, held: &[Cell]) -> Model {
        let cells = held.iter().copied().filter(|cell| cell.expiry > clock).collect();
        Model { capacity, clock, cells }
    }

    /// Those that live past the minute: in the minute of its expiry a cell is absent.
    pub fn live_at(&self, minute: i32) -> Vec<Cell> {
        self.cells.iter().copied().filter(|cell| minute < cell.expiry).collect()
    }

    /// Those that are live at the call's minute, but for the one that the call is about.
    pub fn others(&self, change: &Change) -> Vec<Cell> {
        let mut others = self.live_at(change.minute());
        others.retain(|cell| cell.id != change.id());
        others
    }

    /// The number that a sound table gives: of the first reason that holds, or 0.
    pub fn number(&self, change: &Change) -> i32 {
        if change.out_of_range() {
            return OUT_OF_RANGE;
        }
        if change.minute() < self.clock {
            return BEFORE_CLOCK;
        }
        match change {
            Change::Report(report) if report.expiry <= report.minute => EXPIRES_FIRST,
            Change::Report(_) if self.others(change).len() as i32 >= self.capacity => FULL,
            Change::Drop { id, minute } if !self.live_at(*minute).iter().any(|cell| cell.id == *id) => {
                NOT_LIVE
            }
            _ => 0,
        }
    }

    /// Does what an accepted call does.
    pub fn accept(&mut self, change: &Change) {
        self.cells = self.others(change);
        self.clock = change.minute();
        if let Change::Report(report) = change {
            self.cells.push(kept(report));
        }
    }
}

/// The cell of a report, with its position taken back to minute 0.
fn kept(report: &Report) -> Cell {
    let Report { id, x, y, vx, vy, minute, expiry } = *report;
    Cell { id, x: x - vx * minute, vx, y: y - vy * minute, vy, expiry }
}
