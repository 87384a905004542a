//! How a cell comes to touch an edge at an instant that was chosen first.

use super::Case;
use crate::question::{Query, Question, Rectangle, Report, MINUTE, POSITION, VELOCITY};
use crate::random::Random;

const AT_EXPIRY: &str = "no, a timeslice at the expiry, at the cell";
const BEFORE_EXPIRY: &str = "yes, a timeslice in the minute before the expiry, at the cell";
const AT_LAST: &str = "no, a timeslice at 1,440 and at the cell, which expires then";

pub const NAMES: &[&str] = &[AT_EXPIRY, BEFORE_EXPIRY, AT_LAST];

pub fn in_plane(position: i32) -> bool {
    position.abs() <= POSITION
}

fn divisor(mut a: i32, mut b: i32) -> i32 {
    while b != 0 {
        (a, b) = (b, a % b);
    }
    a
}

/// From 1 to q - 1 and with no divisor in common with q, so that the fraction is in lowest terms.
pub fn numerator(random: &mut Random, q: i32) -> i32 {
    loop {
        let n = random.between(1, q - 1);
        if divisor(n, q) == 1 {
            return n;
        }
    }
}

/// The edges of an interval that begins at `edge` and lies in the direction of the sign.
pub fn beyond(random: &mut Random, edge: i32, sign: i32) -> (i32, i32) {
    if sign > 0 {
        (edge, random.between(edge, POSITION))
    } else {
        (random.between(-POSITION, edge), edge)
    }
}

/// The instant `whole` + n/q, at which a cell reported at `minute` is to reach an edge.
pub struct Moment {
    pub minute: i32,
    pub whole: i32,
    pub n: i32,
    pub q: i32,
}

/// A coordinate's place at its report, its velocity, and where the moment finds it.
pub struct Arrival {
    pub reported: i32,
    pub velocity: i32,
    pub place: i32,
}

impl Moment {
    /// A velocity is to be a multiple of q, so q is at most the greatest velocity.
    pub fn with_denominator(random: &mut Random, q: i32) -> Moment {
        let minute = random.between(0, MINUTE - 1);
        let whole = random.between(minute, MINUTE - 1);
        let n = if q == 1 { 0 } else { numerator(random, q) };
        Moment { minute, whole, n, q }
    }

    /// A coordinate that is a whole number at the moment, since its velocity is a multiple of
    /// q; none if it would run out of the plane.
    pub fn arrival(&self, random: &mut Random) -> Option<Arrival> {
        let times = random.between(1, VELOCITY / self.q) * random.sign();
        let velocity = times * self.q;
        let reported = random.between(-POSITION, POSITION);
        let place = reported + velocity * (self.whole - self.minute) + times * self.n;
        // One unit of room, so that an edge can be put one off.
        in_plane(place - 1).then_some(())?;
        in_plane(place + 1).then_some(())?;
        Some(Arrival { reported, velocity, place })
    }
}

/// Calls a builder until it gives something: the builders give none for what would leave a range.
pub fn until_built<T>(random: &mut Random, build: fn(&mut Random) -> Option<T>) -> T {
    loop {
        if let Some(built) = build(random) {
            return built;
        }
    }
}

/// A window of one instant, with edges at most one off from where the cell then is.
pub fn one_instant(random: &mut Random) -> Case {
    until_built(random, try_one_instant)
}

fn try_one_instant(random: &mut Random) -> Option<Case> {
    let minute = random.between(0, MINUTE - 1);
    let start = if random.between(0, 9) == 0 { MINUTE } else { random.between(minute, MINUTE) };
    let report = Report {
        id: random.between(1, i32::MAX),
        x: random.between(-POSITION, POSITION),
        y: random.between(-POSITION, POSITION),
        vx: random.between(-VELOCITY, VELOCITY),
        vy: random.between(-VELOCITY, VELOCITY),
        minute,
        expiry: random.between(start - 1, start + 1).clamp(minute + 1, MINUTE),
    };
    let x = report.x + report.vx * (start - minute);
    let y = report.y + report.vy * (start - minute);
    let near = |random: &mut Random, place: i32| {
        let low = place + random.between(-1, 1);
        (low, low + random.between(0, 1))
    };
    let (xs, ys) = (near(random, x), near(random, y));
    [xs.0, xs.1, ys.0, ys.1].iter().all(|&edge| in_plane(edge)).then_some(())?;
    let inside = xs.0 <= x && x <= xs.1 && ys.0 <= y && y <= ys.1;
    let query = Query::window(start, start, Rectangle::of(xs, ys));
    let left = report.expiry - start;
    let named = match left {
        0 if inside && start == MINUTE => Some(AT_LAST),
        0 if inside => Some(AT_EXPIRY),
        1 if inside => Some(BEFORE_EXPIRY),
        _ => None,
    };
    Some(Case { question: Question { report, query }, known: Some((inside && left > 0) as i32), named })
}
