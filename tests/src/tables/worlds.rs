//! Cells as a table holds them, drawn from worlds of different sizes.

use super::layout::KEPT;
use crate::question::{MINUTE, POSITION, VELOCITY};
use crate::random::Random;
use std::collections::BTreeSet;

/// A cell with its positions taken back to minute 0.
#[derive(Clone, Copy, Debug, PartialEq, Eq, PartialOrd, Ord)]
pub struct Cell {
    pub id: i32,
    pub x: i32,
    pub vx: i32,
    pub y: i32,
    pub vy: i32,
    pub expiry: i32,
}

impl Cell {
    pub fn x_at(&self, minute: i32) -> i32 {
        self.x + self.vx * minute
    }

    pub fn y_at(&self, minute: i32) -> i32 {
        self.y + self.vy * minute
    }
}

#[derive(Clone, Copy, Debug, PartialEq, Eq)]
pub enum World {
    /// Few positions and minutes, so that cells touch and cross edges at fractions.
    Small,
    /// A day's cells near one another, each trusted for half an hour or so.
    Local,
    /// Reports from anywhere, at any minute.
    Plane,
    /// Every number at an end of its range, or next to it.
    Ends,
}

pub const WORLDS: [World; 4] = [World::Small, World::Local, World::Plane, World::Ends];

impl World {
    pub fn clock(self, random: &mut Random) -> i32 {
        match self {
            World::Small => random.between(0, 6),
            World::Local => random.between(0, MINUTE),
            World::Plane => random.between(0, MINUTE),
            World::Ends => random.one_of(&[0, 1, MINUTE / 2, MINUTE - 1, MINUTE]),
        }
    }

    /// So many cells, no two with the same identifier, some of them expired at the clock, and some in
    /// that very minute or the one after.
    pub fn cells(self, random: &mut Random, count: usize, clock: i32) -> Vec<Cell> {
        let ids = identifiers(random, count);
        let mut cells: Vec<Cell> = ids.into_iter().map(|id| self.cell(random, id, clock)).collect();
        for cell in &mut cells {
            if random.between(0, 9) == 0 {
                cell.expiry = random.one_of(&[clock, clock + 1]).min(MINUTE);
            }
        }
        cells
    }

    fn cell(self, random: &mut Random, id: i32, clock: i32) -> Cell {
        match self {
            World::Small => Cell {
                id,
                x: random.between(-8, 8),
                vx: random.between(-3, 3),
                y: random.between(-8, 8),
                vy: random.between(-3, 3),
                expiry: random.between(0, 12),
            },
            World::Local => {
                let minute = random.between((clock - 40).max(0), clock).min(MINUTE - 1);
                let expiry = (minute + random.between(5, 60)).min(MINUTE);
                reported(random, id, minute, 1_500, 60, expiry)
            }
            World::Plane => {
                let minute = random.between(0, clock).min(MINUTE - 1);
                let expiry = random.between(minute + 1, MINUTE);
                reported(random, id, minute, POSITION, VELOCITY, expiry)
            }
            World::Ends => Cell {
                id,
                x: end(random, -KEPT, KEPT),
                vx: end(random, -VELOCITY, VELOCITY),
                y: end(random, -KEPT, KEPT),
                vy: end(random, -VELOCITY, VELOCITY),
                expiry: end(random, 0, MINUTE),
            },
        }
    }
}

fn reported(random: &mut Random, id: i32, minute: i32, reach: i32, speed: i32, expiry: i32) -> Cell {
    let (vx, vy) = (random.between(-speed, speed), random.between(-speed, speed));
    let x = random.between(-reach, reach) - vx * minute;
    let y = random.between(-reach, reach) - vy * minute;
    Cell { id, x, vx, y, vy, expiry }
}

fn end(random: &mut Random, least: i32, greatest: i32) -> i32 {
    let middle = least + (greatest - least) / 2;
    random.one_of(&[least, least, least + 1, middle, greatest - 1, greatest, greatest])
}

/// In no order; often the least and the greatest of all among them.
fn identifiers(random: &mut Random, count: usize) -> Vec<i32> {
    let greatest = if random.coin() { 2 * count as i32 + 2 } else { i32::MAX };
    let mut chosen = BTreeSet::new();
    if count >= 2 && random.coin() {
        chosen.extend([1, i32::MAX]);
    }
    while chosen.len() < count {
        chosen.insert(random.between(1, greatest));
    }
    let mut ids: Vec<_> = chosen.into_iter().collect();
    random.shuffle(&mut ids);
    ids
}
