//! The library asked through the crate `bradawlet`, in the numbers that the families compare.
//!
//! Where the crate has two ways to ask for one thing, one of which allocates, both are asked.

use crate::question::{Kind, Query, Question, Rectangle, Report, QUERY_NUMBERS};
use crate::refusal::{NO, SHORT_TABLE, YES};
use crate::tables::library::{Answer, Library, Written};
use crate::tables::model::Change;
use crate::tables::sheet::RECORD_NUMBERS;
use bradawlet::{Cell, Hits, Moving, NotListed, Refusal, Table, Window};

pub const LIBRARY: Library = Library { fresh, change, query, write, read, open, next, tracks, read_track };

/// The answer where two ways to ask for one thing differ: no family expects it.
const UNLIKE: i32 = -1;

/// Whether the cell of a question meets its query: yes, no, or the number of the refusal.
pub fn meets(kind: Kind, question: &Question) -> i32 {
    let report = report(&question.report);
    let answer = match kind {
        Kind::Window => bradawlet::meets(&report, &window(&question.query)),
        Kind::Moving => bradawlet::meets_moving(&report, &moving(&question.query)),
    };
    match answer {
        Ok(true) => YES,
        Ok(false) => NO,
        Err(refusal) => refusal.number(),
    }
}

fn report(report: &Report) -> bradawlet::Report {
    let Report { id, x, y, vx, vy, minute, expiry } = *report;
    bradawlet::Report { id, x, y, vx, vy, minute, expiry }
}

fn rectangle(rectangle: &Rectangle) -> bradawlet::Rectangle {
    let Rectangle { xlow, xhigh, ylow, yhigh } = *rectangle;
    bradawlet::Rectangle { xlow, xhigh, ylow, yhigh }
}

fn window(query: &Query) -> Window {
    Window { start: query.start, end: query.end, rectangle: rectangle(&query.first) }
}

fn moving(query: &Query) -> Moving {
    let (first, last) = (rectangle(&query.first), rectangle(&query.last));
    Moving { start: query.start, end: query.end, first, last }
}

fn number<T>(outcome: &Result<T, Refusal>) -> i32 {
    outcome.as_ref().map_or_else(|refusal| refusal.number(), |_| 0)
}

/// One below 0 becomes a very large one, for which there is no table either.
fn capacity(cells: i32) -> usize {
    cells as usize
}

/// An own table is never too short. In all else it is refused, or not, as a lent one is.
fn as_lent(own: i32, lent: i32) -> i32 {
    match lent {
        SHORT_TABLE => lent,
        _ if own == lent => lent,
        _ => UNLIKE,
    }
}

fn fresh(table: &mut [i32], cells: i32) -> i32 {
    let own = number(&Table::new(capacity(cells)));
    as_lent(own, number(&Table::fresh(table, capacity(cells))))
}

fn change(table: &mut [i32], change: &Change) -> i32 {
    number(&Table::over(table).and_then(|mut table| match change {
        Change::Report(reported) => table.report(&report(reported)),
        Change::Drop { id, minute } => table.drop_cell(*id, *minute),
    }))
}

fn query(kind: Kind, table: &mut [i32], list: &mut [i32], numbers: &[i32; QUERY_NUMBERS]) -> Answer {
    let query = Query::from_numbers(kind, numbers);
    let table = match Table::over(&*table) {
        Ok(table) => table,
        Err(refusal) => return Answer { number: refusal.number(), hits: 0, opened: 0 },
    };
    let (own, lent) = match kind {
        Kind::Window => (table.window(&window(&query)), table.window_into(&window(&query), list)),
        Kind::Moving => (table.moving(&moving(&query)), table.moving_into(&moving(&query), list)),
    };
    let alike = match (&own, &lent) {
        (Ok(own), Ok(lent)) => own.ids == lent.ids && own.opened == lent.opened,
        (Ok(own), Err(lent)) => lent.refusal == Refusal::ShortList && lent.hits == own.ids.len(),
        (Err(own), Err(lent)) => *own == lent.refusal,
        (Err(_), Ok(_)) => false,
    };
    match lent {
        _ if !alike => Answer { number: UNLIKE, hits: 0, opened: 0 },
        Ok(Hits { ids, opened }) => Answer { number: 0, hits: ids.len() as i32, opened: opened as i32 },
        Err(NotListed { refusal, hits }) => Answer { number: refusal.number(), hits: hits as i32, opened: 0 },
    }
}

fn write(table: &mut [i32], bytes: &mut [u8]) -> Written {
    let table = match Table::over(&*table) {
        Ok(table) => table,
        Err(refusal) => return Written { number: refusal.number(), total: 0 },
    };
    match table.write_sheet(bytes) {
        Ok(total) if table.to_sheet().as_deref() == Ok(&bytes[..total]) => {
            Written { number: 0, total: total as i32 }
        }
        Ok(_) => Written { number: UNLIKE, total: 0 },
        Err(refusal) => Written { number: refusal.number(), total: 0 },
    }
}

fn read(table: &mut [i32], cells: i32, bytes: &[u8]) -> i32 {
    let own = Table::new_from_sheet(capacity(cells), bytes);
    if own.as_ref().is_ok_and(|own| own.to_sheet().as_deref() != Ok(bytes)) {
        return UNLIKE;
    }
    as_lent(number(&own), number(&Table::from_sheet(table, capacity(cells), bytes)))
}

fn open(table: &mut [i32]) -> i32 {
    number(&Table::over(&*table))
}

/// Words that are no table give no cell, as a step of the raw calls does.
fn next(table: &mut [i32], last: i32, numbers: &mut [i32; RECORD_NUMBERS]) -> i32 {
    let next = Table::over(&*table).and_then(|table| table.cells_after(last).map(|mut cells| cells.next()));
    let found = next.unwrap_or(None);
    *numbers = found.map_or([0; RECORD_NUMBERS], record);
    i32::from(found.is_some())
}

fn record(cell: Cell) -> [i32; RECORD_NUMBERS] {
    let Cell { id, x, vx, y, vy, expiry } = cell;
    [id, x, vx, y, vy, expiry]
}

fn tracks(table: &mut [i32], bytes: &mut [u8]) -> Written {
    let table = match Table::over(&*table) {
        Ok(table) => table,
        Err(refusal) => return Written { number: refusal.number(), total: 0 },
    };
    match table.write_tracks(bytes) {
        Ok(total) if table.to_tracks().is_ok_and(|own| *own.as_bytes() == bytes[..total]) => {
            Written { number: 0, total: total as i32 }
        }
        Ok(_) => Written { number: UNLIKE, total: 0 },
        Err(refusal) => Written { number: refusal.number(), total: 0 },
    }
}

/// The line is given as bytes and, where it is text, as text too. A refusal comes without numbers.
fn read_track(id: i32, line: &mut [u8], numbers: &mut [i32; RECORD_NUMBERS]) -> i32 {
    let read = bradawlet::read_track(id, &*line);
    if std::str::from_utf8(line).is_ok_and(|text| bradawlet::read_track(id, text) != read) {
        return UNLIKE;
    }
    *numbers = read.map_or([0; RECORD_NUMBERS], record);
    number(&read)
}
