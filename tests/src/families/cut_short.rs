//! The cell comes to the rectangle at a chosen instant, and its life, or the window, or both at once
//! end just before that instant, exactly at it or just after. A window reaches to its end; a life does
//! not reach to its expiry.

use super::grazing::Share;
use super::touching::{beyond, numerator, until_built, Moment};
use super::Case;
use crate::question::{Query, Question, Rectangle, Report, MINUTE, POSITION, VELOCITY};
use crate::random::Random;
use std::cmp::Ordering::{self, Equal, Greater, Less};

const WINDOW_BEFORE: &str = "no, the window ends before the touch";
const WINDOW_AT: &str = "yes, the window ends at the touch";
const LIFE_BEFORE: &str = "no, the life ends before the touch";
const LIFE_AT: &str = "no, the life ends at the touch, which comes out as an unreduced fraction";
const LIFE_JUST_AFTER: &str = "yes, the life ends 1/q after the touch";
const LIFE_AFTER: &str = "yes, the life ends a fraction of a minute after the touch";
const BOTH_AT: &str = "no, query and life end at the touch";
const BOTH_AFTER: &str = "yes, query and life end a fraction of a minute after the touch";

pub const OF_WINDOWS: &[&str] =
    &[WINDOW_BEFORE, WINDOW_AT, LIFE_BEFORE, LIFE_AT, LIFE_JUST_AFTER, LIFE_AFTER, BOTH_AT, BOTH_AFTER];

pub const OF_MOVING: &[&str] = &[LIFE_BEFORE, LIFE_AT, LIFE_JUST_AFTER, LIFE_AFTER, BOTH_AT];

/// What is cut short.
#[derive(Clone, Copy)]
enum Cut {
    Window,
    Life,
    Both,
}

/// From the touch to the minute at which something ends: so many parts in q of a minute.
struct Distance {
    parts: i32,
    q: i32,
}

impl Distance {
    fn from_touch(&self) -> Ordering {
        self.parts.cmp(&0)
    }

    fn under_a_minute(&self) -> bool {
        0 < self.parts && self.parts < self.q
    }

    /// It is 1/q for some q of at least 2.
    fn is_one_part(&self) -> bool {
        self.under_a_minute() && self.q % self.parts == 0
    }
}

impl Cut {
    fn meets(self, distance: &Distance) -> bool {
        match (self, distance.from_touch()) {
            (_, Greater) => true,
            (Cut::Window, Equal) => true,
            (Cut::Life | Cut::Both, Equal) => false,
            (_, Less) => false,
        }
    }

    fn name(self, distance: &Distance, reduced: bool) -> Option<&'static str> {
        match (self, distance.from_touch()) {
            (Cut::Window, Less) => Some(WINDOW_BEFORE),
            (Cut::Window, Equal) => Some(WINDOW_AT),
            (Cut::Life, Less) => Some(LIFE_BEFORE),
            (Cut::Life, Equal) if !reduced => Some(LIFE_AT),
            (Cut::Life, Greater) if distance.is_one_part() => Some(LIFE_JUST_AFTER),
            (Cut::Life, Greater) if distance.under_a_minute() => Some(LIFE_AFTER),
            (Cut::Both, Equal) => Some(BOTH_AT),
            (Cut::Both, Greater) if distance.under_a_minute() => Some(BOTH_AFTER),
            _ => None,
        }
    }
}

pub fn window(random: &mut Random) -> Case {
    until_built(random, try_window)
}

fn try_window(random: &mut Random) -> Option<Case> {
    let q = if random.coin() { 1 } else { random.between(2, VELOCITY) };
    let mut moment = Moment::with_denominator(random, q);
    if q > 1 && random.coin() {
        moment.n = q - 1;
    }
    let x = moment.arrival(random)?;
    let xs = beyond(random, x.place, x.velocity.signum());
    let (y, ys) = still_inside(random);
    let start = random.between(moment.minute, moment.whole);
    let short = moment.whole + random.between(-1, 2);
    let long = random.between(moment.whole + 1, MINUTE);
    let cut = [Cut::Window, Cut::Life, Cut::Both][random.place(3)];
    let (end, expiry) = match cut {
        Cut::Window => (short, long),
        Cut::Life => (long, short),
        Cut::Both => (short, short),
    };
    (start <= end && end <= MINUTE).then_some(())?;
    (moment.minute < expiry && expiry <= MINUTE).then_some(())?;
    let report = Report {
        id: random.between(1, i32::MAX),
        x: x.reported,
        y,
        vx: x.velocity,
        vy: 0,
        minute: moment.minute,
        expiry,
    };
    let query = Query::window(start, end, Rectangle::of(xs, ys));
    let distance = Distance { parts: (short - moment.whole) * q - moment.n, q };
    // The touch comes out as a fraction whose denominator is the velocity.
    Some(case(report, query, cut, &distance, x.velocity.abs() == 1))
}

fn case(report: Report, query: Query, cut: Cut, distance: &Distance, reduced: bool) -> Case {
    let known = Some(cut.meets(distance) as i32);
    Case { question: Question { report, query }, known, named: cut.name(distance, reduced) }
}

fn still_inside(random: &mut Random) -> (i32, (i32, i32)) {
    let y = random.between(-POSITION, POSITION);
    (y, (random.between(-POSITION, y), random.between(y, POSITION)))
}

pub fn moving(random: &mut Random) -> Case {
    until_built(random, try_moving)
}

/// Only the life is cut: a moving query with another end would have other edges. Some come to the edge
/// at the end.
fn try_moving(random: &mut Random) -> Option<Case> {
    let minute = random.between(0, MINUTE - 1);
    let start = random.between(minute, MINUTE - 1);
    let k = random.between(2, 60);
    let length = if random.coin() { k * random.between(1, MINUTE / k) } else { random.between(1, MINUTE) };
    let end = start + length;
    (end <= MINUTE).then_some(())?;
    let n = if random.between(0, 7) == 0 { k } else { numerator(random, k) };
    let share = Share { minute, start, end, n, k };
    let x = share.crossing(random)?;
    let [xs, later_xs] = x.ahead(random, 0);
    let (y, ys) = still_inside(random);
    let later_ys = (random.between(-POSITION, y), random.between(y, POSITION));
    let expiry = start + length * share.n / k + random.between(-1, 2);
    (minute < expiry && expiry <= MINUTE).then_some(())?;
    let report =
        Report { id: random.between(1, i32::MAX), x: x.reported, y, vx: x.velocity, vy: 0, minute, expiry };
    let first = Rectangle::of(xs, ys);
    let last = Rectangle::of(later_xs, later_ys);
    let query = Query { start, end, first, last };
    let distance = Distance { parts: (expiry - start) * k - length * share.n, q: k };
    let cut = if expiry == end { Cut::Both } else { Cut::Life };
    // The touch comes out as a fraction whose denominator is a multiple of k.
    Some(case(report, query, cut, &distance, false))
}
