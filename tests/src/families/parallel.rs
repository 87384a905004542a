//! Moving queries whose edges run beside the cell, at its velocity or as near to it as whole
//! numbers allow.

use super::touching::{in_plane, until_built};
use super::Case;
use crate::question::{Query, Question, Rectangle, Report, MINUTE, POSITION, VELOCITY};
use crate::random::Random;

const EXPIRED_AT_START: &str = "no, inside all the time, but the life ends at the start";
const EXPIRED_NEXT: &str = "yes, inside all the time, and the life ends a minute after the start";

pub const NAMES: &[&str] = &[EXPIRED_AT_START, EXPIRED_NEXT];

/// One axis: the cell's coordinate, and edges that stay as far from it as they are.
struct Beside {
    reported: i32,
    velocity: i32,
    first: (i32, i32),
    last: (i32, i32),
    inside: bool,
}

struct Times {
    minute: i32,
    start: i32,
    end: i32,
}

fn times(random: &mut Random) -> Times {
    let minute = random.between(0, MINUTE - 1);
    let start = random.between(minute, MINUTE - 1);
    Times { minute, start, end: random.between(start + 1, MINUTE) }
}

fn beside(random: &mut Random, times: &Times) -> Option<Beside> {
    let velocity = random.between(-VELOCITY, VELOCITY);
    let reported = random.between(-POSITION, POSITION);
    let low = random.between(-2, 1);
    let high = random.between(low, 2);
    let at_start = reported + velocity * (times.start - times.minute);
    let at_end = reported + velocity * (times.end - times.minute);
    // Three units of room: two for the farthest edge, and one to put it off by.
    [at_start - 3, at_start + 3, at_end - 3, at_end + 3].iter().all(|&edge| in_plane(edge)).then_some(())?;
    Some(Beside {
        reported,
        velocity,
        first: (at_start + low, at_start + high),
        last: (at_end + low, at_end + high),
        inside: low <= 0 && high >= 0,
    })
}

/// After the report's minute; often at the start, where that can be, or a minute after it.
fn expiry(random: &mut Random, times: &Times) -> i32 {
    let any = random.between(times.minute + 1, MINUTE);
    random.one_of(&[any, any, times.start, times.start + 1]).max(times.minute + 1)
}

fn question(random: &mut Random, times: &Times, x: &Beside, y: &Beside) -> Question {
    let report = Report {
        id: random.between(1, i32::MAX),
        x: x.reported,
        y: y.reported,
        vx: x.velocity,
        vy: y.velocity,
        minute: times.minute,
        expiry: expiry(random, times),
    };
    let first = Rectangle::of(x.first, y.first);
    let last = Rectangle::of(x.last, y.last);
    Question { report, query: Query { start: times.start, end: times.end, first, last } }
}

pub fn exactly(random: &mut Random) -> Case {
    until_built(random, try_exactly)
}

fn try_exactly(random: &mut Random) -> Option<Case> {
    let times = times(random);
    let (x, y) = (beside(random, &times)?, beside(random, &times)?);
    let question = question(random, &times, &x, &y);
    let inside = x.inside && y.inside;
    let left_at_start = question.report.expiry - times.start;
    let meets = inside && left_at_start > 0;
    let named = match left_at_start {
        0 if inside => Some(EXPIRED_AT_START),
        1 if inside => Some(EXPIRED_NEXT),
        _ => None,
    };
    Some(Case { question, known: Some(meets as i32), named })
}

pub fn nearly(random: &mut Random) -> Case {
    until_built(random, try_nearly)
}

/// Each edge up to a unit off at the end, so that it drifts by that much over the whole query.
fn drifting(random: &mut Random, mut beside: Beside) -> Beside {
    beside.last.0 += random.between(-1, 1);
    beside.last.1 = (beside.last.1 + random.between(-1, 1)).max(beside.last.0);
    beside
}

fn try_nearly(random: &mut Random) -> Option<Case> {
    let times = times(random);
    let (x, y) = (beside(random, &times)?, beside(random, &times)?);
    let (x, y) = (drifting(random, x), drifting(random, y));
    Some(Case { question: question(random, &times, &x, &y), known: None, named: None })
}
