//! Questions drawn number by number.

use super::Case;
use crate::question::{
    Kind, Query, Question, Rectangle, Report, MINUTE, NUMBERS, POSITION, RANGES, VELOCITY,
};
use crate::random::Random;

fn unknown(question: Question) -> Case {
    Case { question, known: None, named: None }
}

/// Every number anywhere in its range; most such questions are refused.
pub fn anywhere(random: &mut Random, kind: Kind) -> Case {
    let numbers: [i32; NUMBERS] = RANGES.map(|(least, greatest)| random.between(least, greatest));
    unknown(Question::from_numbers(kind, &numbers))
}

/// How far numbers may go from 0.
struct Reach {
    position: i32,
    velocity: i32,
    minute: i32,
}

const FULL: Reach = Reach { position: POSITION, velocity: VELOCITY, minute: MINUTE };

/// Few enough positions and minutes that a cell often touches an edge, at fractions too.
const SMALL: Reach = Reach { position: 6, velocity: 3, minute: 6 };

fn rectangle(random: &mut Random, reach: &Reach) -> Rectangle {
    let x = random.ordered(-reach.position, reach.position);
    let y = random.ordered(-reach.position, reach.position);
    Rectangle::of(x, y)
}

/// A question that is not refused.
fn accepted(random: &mut Random, kind: Kind, reach: &Reach) -> Question {
    let minute = random.between(0, reach.minute - 1);
    let start = random.between(minute, reach.minute - 1);
    let end = match kind {
        Kind::Window => random.between(start, reach.minute),
        Kind::Moving => random.between(start + 1, reach.minute),
    };
    let report = Report {
        id: random.between(1, i32::MAX),
        x: random.between(-reach.position, reach.position),
        y: random.between(-reach.position, reach.position),
        vx: random.between(-reach.velocity, reach.velocity),
        vy: random.between(-reach.velocity, reach.velocity),
        minute,
        expiry: random.between(minute + 1, reach.minute),
    };
    let first = rectangle(random, reach);
    let last = match kind {
        Kind::Window => first,
        Kind::Moving => rectangle(random, reach),
    };
    Question { report, query: Query { start, end, first, last } }
}

pub fn ordered(random: &mut Random, kind: Kind) -> Case {
    unknown(accepted(random, kind, &FULL))
}

pub fn small_ordered(random: &mut Random, kind: Kind) -> Case {
    unknown(accepted(random, kind, &SMALL))
}

/// Small numbers in any order, refused ones among them.
pub fn small(random: &mut Random, kind: Kind) -> Case {
    let numbers: [i32; NUMBERS] = RANGES.map(|(least, greatest)| match greatest {
        VELOCITY => random.between(-SMALL.velocity, SMALL.velocity),
        MINUTE => random.between(0, SMALL.minute),
        POSITION => random.between(-SMALL.position, SMALL.position),
        _ => random.between(least, greatest),
    });
    unknown(Question::from_numbers(kind, &numbers))
}

fn extreme(random: &mut Random, (least, greatest): (i32, i32)) -> i32 {
    let middle = least + (greatest - least) / 2;
    random.one_of(&[least, least, least + 1, middle, greatest - 1, greatest, greatest])
}

fn put_in_order(random: &mut Random, question: &mut Question) {
    let Question { report, query } = question;
    report.minute = report.minute.min(query.start).min(query.end).min(report.expiry);
    // Most of those that expire as they are reported are given a minute to live, and some stay refused.
    if report.expiry == report.minute && random.between(0, 3) > 0 {
        match report.expiry {
            MINUTE => report.minute -= 1,
            _ => report.expiry += 1,
        }
    }
    (query.start, query.end) = (query.start.min(query.end), query.start.max(query.end));
    for r in [&mut query.first, &mut query.last] {
        *r = Rectangle::of(
            (r.xlow.min(r.xhigh), r.xlow.max(r.xhigh)),
            (r.ylow.min(r.yhigh), r.ylow.max(r.yhigh)),
        );
    }
}

/// Every number at an end of its range, next to one, or in the middle; mostly not refused.
pub fn extremes(random: &mut Random, kind: Kind) -> Case {
    let numbers: [i32; NUMBERS] = RANGES.map(|range| extreme(random, range));
    let mut question = Question::from_numbers(kind, &numbers);
    if random.between(0, 3) > 0 {
        put_in_order(random, &mut question);
    }
    unknown(question)
}
