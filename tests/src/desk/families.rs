//! Families of runs, each with the replies and the lines that it is meant to bring up.

use super::asking::{aimed, everywhere, spoiled, within};
use super::damage::damaged;
use super::ends::*;
use super::line::Line;
use super::model::{Desk, CAPACITY};
use super::worlds::{drop_at_ends, report_at_ends, World};
use crate::question::{Report, POSITION, VELOCITY};
use crate::random::Random;

pub struct Family {
    pub name: &'static str,
    pub sessions: u64,
    pub lines: usize,
    pub next: fn(&mut Random, &Desk) -> Vec<u8>,
    pub meant: &'static [&'static str],
}

pub const FAMILIES: &[Family] = &[
    Family {
        name: "meetings at fractions",
        sessions: 16,
        lines: 3_000,
        next: dense,
        meant: &["ok", "hits 0", "hits", "no 7", "no 8"],
    },
    Family {
        name: "aimed at a cell",
        sessions: 16,
        lines: 3_000,
        next: around_a_cell,
        meant: &["ok", "hits 0", "hits", "no 7", "no 8", ASKED_LATE, TOUCHED_LATE],
    },
    Family {
        name: "ends of every range",
        sessions: 48,
        lines: 1_000,
        next: at_ends,
        meant: &["ok", "hits 0", "hits", "no 4", "no 5", "no 6", "no 8", NO_LIFE, AT_LAST],
    },
    Family {
        name: "a table kept full",
        sessions: 8,
        lines: 5_000,
        next: kept_full,
        meant: &["ok", "hits", "hits 256", "no 8", "no 9"],
    },
    Family {
        name: "a full table that expires",
        sessions: 8,
        lines: 4_000,
        next: full_and_expiring,
        meant: &["ok", "hits", "no 6", "no 8", "no 9", SUCCEEDS_ITSELF, SUCCEEDS_ANOTHER],
    },
    Family {
        name: "much expiry",
        sessions: 16,
        lines: 3_000,
        next: expiring,
        meant: &["ok", "hits 0", "hits", "no 6", "no 7", "no 8", SUCCEEDS_ITSELF, DROPPED_LATE, ASKED_LATE],
    },
    Family {
        name: "several refusals",
        sessions: 16,
        lines: 2_000,
        next: refused,
        meant: &["ok", "hits", "no 4", "no 5", "no 6", "no 7", "no 8"],
    },
    Family {
        name: "damaged lines",
        sessions: 32,
        lines: 2_000,
        next: nearly_right,
        meant: &["bad", "ok", "hits 0", "hits", "no 5", "no 8"],
    },
];

const SMALL: World = World { identifiers: 14, reach: 8, speed: 3, life: 10, turns_a_minute: 40 };
const PLANE: World =
    World { identifiers: 180, reach: POSITION, speed: VELOCITY, life: 300, turns_a_minute: 30 };
const CROWD: World = World { identifiers: 300, reach: 3_000, speed: 40, life: 1_400, turns_a_minute: 400 };
const RUSH: World = World { identifiers: 400, reach: 3_000, speed: 40, life: 9, turns_a_minute: 500 };
const BRIEF: World = World { identifiers: 90, reach: 300, speed: 20, life: 3, turns_a_minute: 3 };

fn dense(random: &mut Random, desk: &Desk) -> Vec<u8> {
    match random.between(0, 9) {
        0..=3 => Line::Cell(SMALL.report(random, desk)),
        4 => SMALL.drop(random, desk),
        _ => within(random, desk, 12, 5),
    }
    .bytes()
}

fn around_a_cell(random: &mut Random, desk: &Desk) -> Vec<u8> {
    match random.between(0, 19) {
        0..=8 => Line::Cell(PLANE.report(random, desk)),
        9 => PLANE.drop(random, desk),
        _ => aimed(random, desk),
    }
    .bytes()
}

fn at_ends(random: &mut Random, desk: &Desk) -> Vec<u8> {
    match random.between(0, 9) {
        0..=4 => Line::Cell(report_at_ends(random, desk)),
        5 => drop_at_ends(random, desk),
        6 => everywhere(random, desk),
        _ => aimed(random, desk),
    }
    .bytes()
}

/// Reports without end; now and then a drop, which the next report makes good.
fn kept_full(random: &mut Random, desk: &Desk) -> Vec<u8> {
    match random.between(0, 19) {
        0..=13 => Line::Cell(CROWD.report(random, desk)),
        14 => CROWD.drop(random, desk),
        15 => everywhere(random, desk),
        16 | 17 => within(random, desk, 3_000, 60),
        _ => aimed(random, desk),
    }
    .bytes()
}

/// Each new minute comes to a table that was full, and makes room in it.
fn full_and_expiring(random: &mut Random, desk: &Desk) -> Vec<u8> {
    let full = desk.model.cells.len() as i32 == CAPACITY;
    if full && random.between(0, 29) == 0 {
        return RUSH.at_an_expiry(random, desk).bytes();
    }
    match random.between(0, 19) {
        0..=16 => Line::Cell(RUSH.report(random, desk)),
        17 => RUSH.drop(random, desk),
        18 => within(random, desk, 3_000, 6),
        _ => aimed(random, desk),
    }
    .bytes()
}

fn expiring(random: &mut Random, desk: &Desk) -> Vec<u8> {
    match random.between(0, 9) {
        0..=4 => Line::Cell(BRIEF.report(random, desk)),
        5 if random.coin() => BRIEF.at_an_expiry(random, desk),
        5 => BRIEF.drop(random, desk),
        6 => aimed(random, desk),
        _ => within(random, desk, 400, 4),
    }
    .bytes()
}

fn refused(random: &mut Random, desk: &Desk) -> Vec<u8> {
    match random.between(0, 9) {
        0..=2 => Line::Cell(PLANE.report(random, desk)),
        3 => Line::Cell(report_at_ends(random, desk)),
        4 => Line::Cell(early(random, desk)),
        5 => PLANE.drop(random, desk),
        _ => {
            let query = aimed(random, desk);
            spoiled(random, &query)
        }
    }
    .bytes()
}

/// A report before the clock, or one that does not expire after its minute, or both.
fn early(random: &mut Random, desk: &Desk) -> Report {
    let mut report = PLANE.report(random, desk);
    if random.coin() {
        report.minute = random.between(0, desk.clock());
    }
    report.expiry = random.between(0, report.minute);
    report
}

fn nearly_right(random: &mut Random, desk: &Desk) -> Vec<u8> {
    let line = match random.between(0, 5) {
        0 | 1 => Line::Cell(PLANE.report(random, desk)),
        2 => PLANE.drop(random, desk),
        3 => everywhere(random, desk),
        _ => aimed(random, desk),
    };
    if random.coin() {
        damaged(random, &line)
    } else {
        line.bytes()
    }
}
