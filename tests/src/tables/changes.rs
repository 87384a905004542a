//! Reports and drops that have something to do with the table that they are put to.

use super::model::{Change, Model};
use super::worlds::Cell;
use crate::question::{Report, MINUTE, POSITION, QUERY_AT, RANGES, VELOCITY};
use crate::random::Random;
use crate::refusal::{BEFORE_CLOCK, EXPIRES_FIRST, OUT_OF_RANGE};

/// How the calls of one run are drawn.
pub struct Style {
    /// How far from 0 cells are reported, and how fast they go.
    reach: i32,
    speed: i32,
    /// The longest time from a report to its expiry.
    life: i32,
    /// The longest time from one call to the next.
    wait: i32,
    /// Of ten calls, so many are reports.
    reports: i32,
    /// The greatest identifier.
    identifiers: i32,
}

const MINUTE_AT: usize = 5;
const EXPIRY_AT: usize = 6;

impl Style {
    pub fn drawn(random: &mut Random, capacity: i32) -> Style {
        let (reach, speed) =
            [(8, 3), (1_500, 60), (POSITION, VELOCITY), (0, VELOCITY), (POSITION, 0)][random.place(5)];
        Style {
            reach,
            speed,
            life: random.one_of(&[1, 4, 30, 60, 400, MINUTE]),
            wait: random.one_of(&[0, 1, 1, 3, 3, 200]),
            reports: random.one_of(&[5, 6, 8, 9]),
            identifiers: random.one_of(&[capacity + 1, 2 * capacity + 1, i32::MAX]),
        }
    }

    /// A call that is mostly accepted, unless the table is full.
    pub fn change(&self, random: &mut Random, model: &Model, held: &[Cell]) -> Change {
        if random.between(0, 14) == 0 {
            if let Some(change) = self.at_an_expiry(random, model) {
                return change;
            }
        }
        let minute = self.minute(random, model.clock);
        if random.between(1, 10) <= self.reports {
            let known = !model.cells.is_empty() && random.between(0, 3) == 0;
            let id = if known { any_of(random, &model.cells) } else { random.between(1, self.identifiers) };
            return Change::Report(self.report(random, id, minute));
        }
        let live = model.live_at(minute);
        let id = match random.between(0, 9) {
            0 => random.between(1, self.identifiers),
            1 | 2 if !held.is_empty() => any_of(random, held),
            _ if !live.is_empty() => any_of(random, &live),
            _ => random.between(1, self.identifiers),
        };
        Change::Drop { id, minute }
    }

    /// In the minute in which the next life ends: a drop of that cell, which is refused, or a report,
    /// which finds it gone, with its identifier or another.
    fn at_an_expiry(&self, random: &mut Random, model: &Model) -> Option<Change> {
        let ends = model.cells.iter().min_by_key(|cell| cell.expiry)?;
        let minute = ends.expiry;
        Some(match random.between(0, 2) {
            0 => Change::Drop { id: ends.id, minute },
            1 => Change::Report(self.report(random, ends.id, minute)),
            _ => {
                let id = random.between(1, self.identifiers);
                Change::Report(self.report(random, id, minute))
            }
        })
    }

    fn minute(&self, random: &mut Random, clock: i32) -> i32 {
        let wait = if random.coin() { 0 } else { random.between(0, self.wait) };
        // At the last minute of all everything is refused, so few calls come then.
        match clock + wait {
            MINUTE.. if random.between(0, 2) == 0 => MINUTE,
            MINUTE.. => clock.max(MINUTE - 1),
            minute => minute,
        }
    }

    pub fn report(&self, random: &mut Random, id: i32, minute: i32) -> Report {
        let mut near = |most: i32| match random.between(0, 9) {
            0 => most,
            1 => -most,
            _ => random.between(-most, most),
        };
        let (x, y, vx, vy) = (near(self.reach), near(self.reach), near(self.speed), near(self.speed));
        // Some expire as they are reported and are refused; so are all at the last minute of all.
        let life = if random.between(0, 19) == 0 { 0 } else { random.between(1, self.life) };
        Report { id, x, y, vx, vy, minute, expiry: (minute + life).min(MINUTE) }
    }
}

fn any_of(random: &mut Random, cells: &[Cell]) -> i32 {
    cells[random.place(cells.len())].id
}

/// With any set of the reasons to refuse that lie in the arguments, none and all of them too.
pub fn spoiled(random: &mut Random, clock: i32, change: &Change) -> Change {
    // Out of range comes last, so that no other reason puts its argument right again.
    let mut reasons = vec![BEFORE_CLOCK, EXPIRES_FIRST, OUT_OF_RANGE];
    reasons.retain(|_| random.coin());
    spoiled_by(random, clock, change, &reasons)
}

pub fn spoiled_by(random: &mut Random, clock: i32, change: &Change, reasons: &[i32]) -> Change {
    match change {
        Change::Report(report) => {
            let mut numbers = report.numbers();
            for &reason in reasons {
                spoil_report(random, clock, &mut numbers, reason);
            }
            Change::Report(Report::from_numbers(&numbers))
        }
        Change::Drop { id, minute } => {
            let (mut id, mut minute) = (*id, *minute);
            for &reason in reasons {
                match reason {
                    BEFORE_CLOCK => minute = before(random, clock),
                    OUT_OF_RANGE if random.coin() => id = random.one_of(&[0, -1, i32::MIN]),
                    OUT_OF_RANGE => minute = outside(random, MINUTE_AT),
                    _ => {}
                }
            }
            Change::Drop { id, minute }
        }
    }
}

fn spoil_report(random: &mut Random, clock: i32, numbers: &mut [i32; QUERY_AT], reason: i32) {
    match reason {
        BEFORE_CLOCK => numbers[MINUTE_AT] = before(random, clock),
        EXPIRES_FIRST if random.coin() => numbers[EXPIRY_AT] = numbers[MINUTE_AT],
        EXPIRES_FIRST => numbers[EXPIRY_AT] = before(random, numbers[MINUTE_AT]),
        _ => {
            let number = random.place(QUERY_AT);
            numbers[number] = outside(random, number);
        }
    }
}

/// A minute before this one, if there is one.
fn before(random: &mut Random, minute: i32) -> i32 {
    let any = random.between(0, (minute - 1).max(0));
    random.one_of(&[minute - 1, 0, any]).max(0)
}

/// A number that the argument at this place may not be. There is none above any identifier.
fn outside(random: &mut Random, at: usize) -> i32 {
    let (least, greatest) = RANGES[at];
    match greatest.checked_add(1) {
        Some(next) => random.one_of(&[least - 1, i32::MIN, next, i32::MAX]),
        None => random.one_of(&[least - 1, i32::MIN]),
    }
}
