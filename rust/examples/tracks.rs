//! Hands the live cells of one table to another as lines of text, each with the identifier of its cell.

use bradawlet::{read_track, Cell, Refusal, Report, Table};

/// The table's clock when the text is written, kept beside it: no cell that is read has it.
const CLOCK: i32 = 10;

fn main() -> Result<(), Refusal> {
    let mut table = Table::new(256)?;
    table.report(&Report { id: 7, x: 100, y: 200, vx: 5, vy: -3, minute: CLOCK, expiry: 40 })?;
    table.report(&Report { id: 9, x: 0, y: 0, vx: 3, vy: 3, minute: CLOCK, expiry: 30 })?;
    let text = table.to_tracks()?;
    print!("{text}");

    let mut other = Table::new(256)?;
    // A line is read with its line feed, which `split_inclusive` leaves and `lines` takes off.
    for (cell, line) in table.cells()?.zip(text.split_inclusive('\n')) {
        other.report(&report_of(&read_track(cell.id, line)?))?;
    }
    for cell in other.cells()? {
        println!("cell {} is at {:?} at minute {CLOCK}, until {}", cell.id, cell.at(CLOCK), cell.expiry);
    }
    // A line from elsewhere may be no track of a cell: one point has no velocity.
    let point = "POINT M (310 -10 10)\n";
    match read_track(8, point) {
        Ok(read) => other.report(&report_of(&read))?,
        Err(refusal) => print!("{refusal}: {point}"),
    }
    Ok(())
}

/// The cell as it is at the clock of the text, which becomes the clock of the table that it is reported to.
fn report_of(&Cell { id, x, vx, y, vy, expiry }: &Cell) -> Report {
    Report { id, x: x + vx * CLOCK, y: y + vy * CLOCK, vx, vy, minute: CLOCK, expiry }
}
