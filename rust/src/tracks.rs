//! Tracks as lines of well-known text, OGC 06-103r4.

use crate::asked::Cell;
use crate::calls;
use crate::refusal::{accepted, another_library, Refusal};

/// The cell with this identifier whose track is this line: one `LINESTRING M` as
/// [`to_tracks`](crate::Table::to_tracks) spells it, with its line feed and with nothing after it. The cell
/// expires at the second point's minute; the first point's is not given back.
///
/// To cut a text into lines take `split_inclusive('\n')`, which leaves each its line feed: `lines` takes it
/// off, and then every line is refused.
///
/// To put the cell into a table, report it where it is [`at`](Cell::at) a minute that is not before the first
/// point's, not before the table's clock and before the expiry. The cell is the same for each of them, but
/// the minute becomes the clock. Where it is out of range for a report, a sheet takes it.
///
/// # Errors
///
/// [`NoTrack`](Refusal::NoTrack) if the text is anything else, if the first minute is not before the second,
/// if a position is no multiple of 10 metres, if a velocity does not come out whole, and if the identifier, a
/// minute, a velocity or a position at minute 0 is outside its range. The two points may lie anywhere. A
/// `POINT M` line has no velocity and is refused as well. None is written; 0.2.0 wrote one for a cell whose
/// expiry was the clock, which counts as expired now.
///
/// ```
/// use bradawlet::{read_track, Cell, Refusal};
///
/// let line = "LINESTRING M (1000 2000 10, 2500 1100 40)\n";
/// assert_eq!(read_track(7, line), Ok(Cell { id: 7, x: 50, vx: 5, y: 230, vy: -3, expiry: 40 }));
/// assert_eq!(read_track(0, line), Err(Refusal::NoTrack));
/// assert_eq!(read_track(7, line.trim_end()), Err(Refusal::NoTrack));
/// assert_eq!(read_track(7, "LINESTRING M (1000 2000 10,2500 1100 40)\n"), Err(Refusal::NoTrack));
/// assert_eq!(read_track(7, b"POINT M (1000 2000 10)\n"), Err(Refusal::NoTrack));
/// ```
pub fn read_track(id: i32, line: impl AsRef<[u8]>) -> Result<Cell, Refusal> {
    let (number, record) = calls::read_track(id, line.as_ref());
    accepted(number).map(|()| Cell::of_record(record))
}

/// Lines are letters, digits and marks of ASCII, and so UTF-8.
pub(crate) fn text(bytes: Vec<u8>) -> String {
    String::from_utf8(bytes).unwrap_or_else(|_| another_library("bytes that are no text"))
}

#[cfg(test)]
mod tests {
    use super::*;

    #[test]
    fn bytes_of_lines_are_text() {
        let line = "LINESTRING M (310 -10 10, 320 0 11)\n";
        assert_eq!(text(line.as_bytes().to_vec()), line);
    }

    #[test]
    #[should_panic(expected = "another library: it gave bytes that are no text")]
    fn bytes_that_are_no_text_are_no_answer() {
        text(vec![0xff]);
    }
}
