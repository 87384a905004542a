//! Lines for other readers of well-known text: from the shortest to the longest, with positions on either
//! side of 0, and cells that move or stand still. Nothing is compared here.

use super::builder::{build, Plan};
use super::chart::{points, LONGEST_LINE};
use super::layout::{KEPT, LARGEST};
use super::library::Library;
use super::sheet::live;
use super::worlds::Cell;
use crate::question::{MINUTE, VELOCITY};
use crate::random::Random;

const CLOCKS: [i32; 7] = [0, 9, 10, 99, 100, 1_000, MINUTE - 1];

const KEPTS: [i32; 12] = [0, 1, 9, 10, 99, 100, 1_000, 9_999, 10_000, 100_000, 500_000, KEPT];

const VELOCITIES: [(i32, i32); 3] = [(0, 0), (1, 10), (VELOCITY, VELOCITY)];

const SIGNS: [(i32, i32); 4] = [(1, 1), (1, -1), (-1, 1), (-1, -1)];

/// Prints the numbers of each point and, after a tab, the line that the library wrote.
pub fn print(library: &Library) {
    for clock in CLOCKS {
        let cells = cells_at(clock);
        let plan = Plan { capacity: LARGEST, clock, height: 3, cells: cells.clone(), extra: 0 };
        let mut words = build(&mut Random::seeded(0), &plan);
        let mut bytes = vec![0; LONGEST_LINE * cells.len()];
        let written = (library.tracks)(&mut words, &mut bytes);
        assert!(written.number == 0, "a sound table and enough bytes, refused by {}", written.number);
        let text = String::from_utf8_lossy(&bytes[..written.total as usize]);
        let live = live(&cells, clock);
        assert!(text.lines().count() == live.len(), "not a line for each live cell");
        for (line, cell) in text.lines().zip(&live) {
            let numbers: Vec<String> = points(clock, cell).concat().iter().map(i32::to_string).collect();
            println!("{}\t{line}", numbers.join(" "));
        }
    }
}

/// By rising distance from 0, each with a minute to live, with two, or with many in turn.
fn cells_at(clock: i32) -> Vec<Cell> {
    let expiries = [clock + 1, clock + 2, (clock + MINUTE + 1) / 2, MINUTE];
    let mut cells = Vec::new();
    for kept in KEPTS {
        for (right, up) in SIGNS {
            for (vx, vy) in VELOCITIES {
                let (x, y, vx, vy) = (right * kept, up * kept, right * vx, up * vy);
                let expiry = expiries[cells.len() % expiries.len()].min(MINUTE);
                cells.push(Cell { id: cells.len() as i32 + 1, x, vx, y, vy, expiry });
            }
        }
    }
    cells
}
