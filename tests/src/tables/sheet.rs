//! The sheet of a table: its clock and its live cells as bytes, and what bytes say as a sheet.

use super::layout::{KEPT, LARGEST};
use super::worlds::Cell;
use crate::question::{MINUTE, VELOCITY};
use crate::refusal::{BAD_HEADER, BAD_RECORD, FULL};

/// The numbers of a record.
pub const RECORD_NUMBERS: usize = 6;

const HEADER_BYTES: usize = 16;
const RECORD_BYTES: usize = 24;

/// The cells whose expiry is after the clock, by rising identifier.
pub fn live(cells: &[Cell], clock: i32) -> Vec<Cell> {
    let mut live: Vec<Cell> = cells.iter().copied().filter(|cell| cell.expiry > clock).collect();
    live.sort_by_key(|cell| cell.id);
    live
}

pub fn record(cell: &Cell) -> [i32; RECORD_NUMBERS] {
    [cell.id, cell.x, cell.vx, cell.y, cell.vy, cell.expiry]
}

/// Count, offset of the cells, clock and total length, then the records.
pub fn sheet(clock: i32, live: &[Cell]) -> Vec<u8> {
    let total = HEADER_BYTES + RECORD_BYTES * live.len();
    let mut numbers = vec![live.len() as i32, HEADER_BYTES as i32, clock, total as i32];
    numbers.extend(live.iter().flat_map(record));
    numbers.iter().flat_map(|number| number.to_le_bytes()).collect()
}

/// What a sheet says.
pub struct Said {
    pub clock: i32,
    pub cells: Vec<Cell>,
}

/// What bytes say to a table for so many cells, or the first of 11, 9 and 12.
pub fn said(bytes: &[u8], capacity: i32) -> Result<Said, i32> {
    let words: Vec<i32> =
        bytes.chunks_exact(4).map(|four| i32::from_le_bytes(four.try_into().expect("four bytes"))).collect();
    let &[count, offset, clock, total, ref numbers @ ..] = words.as_slice() else { return Err(BAD_HEADER) };
    let length = HEADER_BYTES as i64 + RECORD_BYTES as i64 * i64::from(count);
    let whole = (0..=LARGEST).contains(&count)
        && offset as usize == HEADER_BYTES
        && (0..=MINUTE).contains(&clock)
        && i64::from(total) == length
        && bytes.len() as i64 == length;
    if !whole {
        return Err(BAD_HEADER);
    }
    if count > capacity {
        return Err(FULL);
    }
    let cells: Vec<Cell> = numbers.chunks_exact(RECORD_NUMBERS).map(cell).collect();
    let fits = |cell: &Cell| in_range(cell) && clock < cell.expiry;
    let rising = cells.windows(2).all(|pair| pair[0].id < pair[1].id);
    if rising && cells.iter().all(fits) {
        Ok(Said { clock, cells })
    } else {
        Err(BAD_RECORD)
    }
}

fn cell(numbers: &[i32]) -> Cell {
    let &[id, x, vx, y, vy, expiry] = numbers else { unreachable!("a record's numbers") };
    Cell { id, x, vx, y, vy, expiry }
}

fn in_range(cell: &Cell) -> bool {
    let within = |number: i32, most: i32| (-most..=most).contains(&number);
    cell.id >= 1
        && within(cell.x, KEPT)
        && within(cell.y, KEPT)
        && within(cell.vx, VELOCITY)
        && within(cell.vy, VELOCITY)
        && (0..=MINUTE).contains(&cell.expiry)
}
