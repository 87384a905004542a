//! Families of questions, each with the answers that it is meant to bring up.

mod cut_short;
mod grazing;
mod parallel;
mod plain;
mod refused;
mod touching;

use crate::question::{Kind, Question};
use crate::random::Random;

/// A question, with its answer where the way it was built makes that known, and with a name for it
/// where it is one of those that the family is meant to bring up.
pub struct Case {
    pub question: Question,
    pub known: Option<i32>,
    pub named: Option<&'static str>,
}

/// What a family is meant to bring up: answers, and questions by their names.
pub struct Family {
    pub name: &'static str,
    pub make: fn(&mut Random) -> Case,
    pub meant: &'static [i32],
    pub names: &'static [&'static str],
}

impl Family {
    const fn of(name: &'static str, make: fn(&mut Random) -> Case, meant: &'static [i32]) -> Family {
        Family { name, make, meant, names: &[] }
    }

    const fn with_names(self, names: &'static [&'static str]) -> Family {
        Family { names, ..self }
    }
}

const ACCEPTED: &[i32] = &[0, 1];
const UNSORTED: &[i32] = &[0, 1, 5, 6, 7];
const EVERY: &[i32] = &[0, 1, 4, 5, 6, 7];

pub const WINDOWS: &[Family] = &[
    Family::of("anywhere", |r| plain::anywhere(r, Kind::Window), UNSORTED),
    Family::of("anywhere, in order", |r| plain::ordered(r, Kind::Window), ACCEPTED),
    Family::of("small", |r| plain::small(r, Kind::Window), UNSORTED),
    Family::of("small, in order", |r| plain::small_ordered(r, Kind::Window), ACCEPTED),
    Family::of("extremes", |r| plain::extremes(r, Kind::Window), UNSORTED),
    Family::of("one instant", touching::one_instant, ACCEPTED).with_names(touching::NAMES),
    Family::of("corner grazed", grazing::window, ACCEPTED).with_names(grazing::NAMES),
    Family::of("cut short at the touch", cut_short::window, ACCEPTED).with_names(cut_short::OF_WINDOWS),
    Family::of("at and past a range's ends", |r| refused::range_ends(r, Kind::Window), EVERY),
    Family::of("several refusals", |r| refused::several(r, Kind::Window), EVERY).with_names(refused::NAMES),
];

pub const MOVING: &[Family] = &[
    Family::of("anywhere", |r| plain::anywhere(r, Kind::Moving), UNSORTED),
    Family::of("anywhere, in order", |r| plain::ordered(r, Kind::Moving), ACCEPTED),
    Family::of("small", |r| plain::small(r, Kind::Moving), UNSORTED),
    Family::of("small, in order", |r| plain::small_ordered(r, Kind::Moving), ACCEPTED),
    Family::of("extremes", |r| plain::extremes(r, Kind::Moving), UNSORTED),
    Family::of("corner grazed", grazing::moving, ACCEPTED).with_names(grazing::NAMES),
    Family::of("cut short at the touch", cut_short::moving, ACCEPTED).with_names(cut_short::OF_MOVING),
    Family::of("edges at the cell's velocity", parallel::exactly, ACCEPTED).with_names(parallel::NAMES),
    Family::of("edges nearly at the cell's velocity", parallel::nearly, ACCEPTED),
    Family::of("at and past a range's ends", |r| refused::range_ends(r, Kind::Moving), EVERY),
    Family::of("several refusals", |r| refused::several(r, Kind::Moving), EVERY).with_names(refused::NAMES),
];

/// A question of small numbers that is not refused.
pub fn small_and_accepted(random: &mut Random, kind: Kind) -> Question {
    plain::small_ordered(random, kind).question
}
