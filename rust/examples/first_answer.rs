//! Reports two cells, and asks which of them a catchment must expect.

use bradawlet::{Rectangle, Refusal, Report, Table, Window};

fn main() -> Result<(), Refusal> {
    let mut table = Table::new(256)?;
    table.report(&Report { id: 7, x: 100, y: 200, vx: 5, vy: -3, minute: 10, expiry: 40 })?;
    table.report(&Report { id: 9, x: 0, y: 0, vx: 3, vy: 3, minute: 10, expiry: 30 })?;

    // From minute 10 to 11 cell 9 is at the point (1, 1) once, after a third of a minute.
    let rectangle = Rectangle { xlow: 1, xhigh: 1, ylow: 1, yhigh: 1 };
    print_hits(&table, &Window { start: 10, end: 11, rectangle });
    // Nothing is there at minute 12: an empty list, and a true one.
    print_hits(&table, &Window { start: 12, end: 12, rectangle });
    // Start and end transposed: refused, and no list at all.
    print_hits(&table, &Window { start: 11, end: 10, rectangle });

    for cell in table.cells()? {
        let (x, y) = cell.at(20);
        println!("cell {} is at ({x}, {y}) at minute 20, and is live until {}", cell.id, cell.expiry);
    }
    Ok(())
}

fn print_hits(table: &Table<Vec<i32>>, window: &Window) {
    match table.window(window) {
        Ok(hits) => println!("from {} to {}: cells {:?}", window.start, window.end, hits.ids),
        Err(refusal) => println!("from {} to {}: {refusal}", window.start, window.end),
    }
}
