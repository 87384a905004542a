//! Reports and drops that suit what a family is about.

use super::line::{Line, GREATEST};
use super::model::Desk;
use crate::question::{Report, MINUTE, POSITION, VELOCITY};
use crate::random::Random;

/// What cells a family has: how many identifiers, how far and how fast they go, how long they
/// live, and how often a report or drop sets the clock on.
pub struct World {
    pub identifiers: i32,
    pub reach: i32,
    pub speed: i32,
    pub life: i32,
    pub turns_a_minute: i32,
}

impl World {
    /// The minute of the next report or drop.
    fn minute(&self, random: &mut Random, desk: &Desk) -> i32 {
        let later = i32::from(random.between(1, self.turns_a_minute) == 1);
        (desk.clock() + later).min(MINUTE)
    }

    pub fn report(&self, random: &mut Random, desk: &Desk) -> Report {
        let minute = self.minute(random, desk);
        let id = random.between(1, self.identifiers);
        self.report_at(random, id, minute)
    }

    /// Some expire as they are reported, and are refused.
    fn report_at(&self, random: &mut Random, id: i32, minute: i32) -> Report {
        let life = if random.between(0, 29) == 0 { 0 } else { random.between(1, self.life) };
        Report {
            id,
            x: random.between(-self.reach, self.reach),
            y: random.between(-self.reach, self.reach),
            vx: random.between(-self.speed, self.speed),
            vy: random.between(-self.speed, self.speed),
            minute,
            expiry: (minute + life).min(MINUTE),
        }
    }

    /// In the very minute in which the next life ends: a drop of that cell, a report on it, or on another.
    pub fn at_an_expiry(&self, random: &mut Random, desk: &Desk) -> Line {
        let Some(cell) = desk.model.cells.iter().min_by_key(|cell| cell.expiry) else {
            return Line::Cell(self.report(random, desk));
        };
        let (id, minute) = (cell.id, cell.expiry);
        match random.between(0, 2) {
            0 => Line::Drop { id, minute },
            1 => Line::Cell(self.report_at(random, id, minute)),
            _ => {
                let other = self.unknown(random, desk);
                Line::Cell(self.report_at(random, other, minute))
            }
        }
    }

    /// An identifier that no live cell has, if one is soon found.
    fn unknown(&self, random: &mut Random, desk: &Desk) -> i32 {
        let known = |id: &i32| desk.model.cells.iter().any(|cell| cell.id == *id);
        let mut drawn = (0..20).map(|_| random.between(1, self.identifiers));
        drawn.find(|id| !known(id)).unwrap_or(1)
    }

    pub fn drop(&self, random: &mut Random, desk: &Desk) -> Line {
        Line::Drop { id: random.between(1, self.identifiers), minute: self.minute(random, desk) }
    }
}

/// A number at an end of its range, next to one, or far out.
fn end(random: &mut Random, least: i32, greatest: i32) -> i32 {
    let inside = [least, least + 1, greatest - 1, greatest, least, greatest];
    let outside = [least - 1, greatest.saturating_add(1), GREATEST, -GREATEST];
    let choices: &[i32] = if random.between(0, 30) == 0 { &outside } else { &inside };
    random.one_of(choices).clamp(-GREATEST, GREATEST)
}

/// Every number at an end of its range; the minute often the clock.
pub fn report_at_ends(random: &mut Random, desk: &Desk) -> Report {
    let minute = if random.between(0, 200) == 0 { end(random, 0, MINUTE) } else { desk.clock() };
    let expiry =
        if random.coin() { end(random, 0, MINUTE) } else { random.one_of(&[minute, minute + 1, minute + 1]) };
    Report {
        id: if random.coin() { random.between(1, 40) } else { end(random, 1, GREATEST) },
        x: end(random, -POSITION, POSITION),
        y: end(random, -POSITION, POSITION),
        vx: end(random, -VELOCITY, VELOCITY),
        vy: end(random, -VELOCITY, VELOCITY),
        minute,
        expiry,
    }
}

pub fn drop_at_ends(random: &mut Random, desk: &Desk) -> Line {
    let id = end(random, 1, GREATEST);
    let minute = if random.coin() { desk.clock() } else { end(random, 0, MINUTE.min(desk.clock() + 1)) };
    Line::Drop { id, minute }
}
