//! A corner grazed: one coordinate enters the rectangle at a proper fraction of a minute, which
//! is the instant at which the other leaves it. Half of the corners are moved one unit out of
//! the cell's way. Some of the cells expire in the first whole minute after it.

use super::touching::{beyond, in_plane, numerator, until_built, Moment};
use super::Case;
use crate::question::{Query, Question, Rectangle, Report, MINUTE, POSITION, VELOCITY};
use crate::random::Random;

const JUST_BEFORE_EXPIRY: &str = "yes, the corner is grazed in the minute before the expiry";

pub const NAMES: &[&str] = &[JUST_BEFORE_EXPIRY];

/// A minute after the corner, often the first; and the name of a grazing before that one.
fn expiry(random: &mut Random, first: i32, grazes: bool) -> (i32, Option<&'static str>) {
    let expiry = if random.coin() { first } else { random.between(first, MINUTE) };
    (expiry, (grazes && expiry == first).then_some(JUST_BEFORE_EXPIRY))
}

/// One unit later for the coordinate that enters, or one unit earlier for the one that leaves.
struct Shift {
    enters: i32,
    leaves: i32,
}

fn shift(random: &mut Random, grazes: bool) -> Shift {
    match (grazes, random.coin()) {
        (true, _) => Shift { enters: 0, leaves: 0 },
        (false, true) => Shift { enters: 1, leaves: 0 },
        (false, false) => Shift { enters: 0, leaves: 1 },
    }
}

pub fn window(random: &mut Random) -> Case {
    until_built(random, try_window)
}

fn try_window(random: &mut Random) -> Option<Case> {
    let q = random.between(2, VELOCITY);
    let moment = Moment::with_denominator(random, q);
    let (enters, leaves) = (moment.arrival(random)?, moment.arrival(random)?);
    let grazes = random.coin();
    let shift = shift(random, grazes);
    let (ahead, back) = (enters.velocity.signum(), -leaves.velocity.signum());
    let entered = beyond(random, enters.place + ahead * shift.enters, ahead);
    let left = beyond(random, leaves.place + back * shift.leaves, back);
    let ((x, xs), (y, ys)) =
        if random.coin() { ((enters, entered), (leaves, left)) } else { ((leaves, left), (enters, entered)) };
    let (expiry, named) = expiry(random, moment.whole + 1, grazes);
    let report = Report {
        id: random.between(1, i32::MAX),
        x: x.reported,
        y: y.reported,
        vx: x.velocity,
        vy: y.velocity,
        minute: moment.minute,
        expiry,
    };
    let start = random.between(moment.minute, moment.whole);
    let end = random.between(moment.whole + 1, MINUTE);
    let query = Query::window(start, end, Rectangle::of(xs, ys));
    Some(Case { question: Question { report, query }, known: Some(grazes as i32), named })
}

/// A moving query with the share n/k of its length at which the cell is to reach an edge.
pub struct Share {
    pub minute: i32,
    pub start: i32,
    pub end: i32,
    pub n: i32,
    pub k: i32,
}

/// A coordinate with a moving edge that it reaches at the share, and the side on which it then
/// comes to be.
pub struct Crossing {
    pub reported: i32,
    pub velocity: i32,
    pub first: i32,
    pub last: i32,
    pub sign: i32,
}

impl Share {
    /// The cell stands n parts before the edge at the start and k - n parts past it at the end,
    /// so it is on the edge after n of k parts of the query's length.
    pub fn crossing(&self, random: &mut Random) -> Option<Crossing> {
        let velocity = random.between(-VELOCITY, VELOCITY);
        let reported = random.between(-POSITION, POSITION);
        let sign = random.sign();
        let part = sign * random.between(1, 40);
        let first = reported + velocity * (self.start - self.minute) + part * self.n;
        let last = reported + velocity * (self.end - self.minute) - part * (self.k - self.n);
        // One unit of room, so that an edge can be put one off.
        [first - 1, first + 1, last - 1, last + 1].iter().all(|&edge| in_plane(edge)).then_some(())?;
        Some(Crossing { reported, velocity, first, last, sign })
    }

    /// The last whole minute that is not after the share.
    fn whole_minute(&self) -> i32 {
        self.start + (self.end - self.start) * self.n / self.k
    }

    fn on_a_whole_minute(&self) -> bool {
        (self.end - self.start) * self.n % self.k == 0
    }
}

/// How much of a shift an edge takes at the query's start and at its end: at least at one.
fn ends(random: &mut Random) -> (i32, i32) {
    [(1, 1), (1, 0), (0, 1)][random.between(0, 2) as usize]
}

impl Crossing {
    /// The intervals at the start and at the end that lie on one side of the edge, which is
    /// first moved into that side by `shift` units.
    fn side(&self, random: &mut Random, sign: i32, shift: i32) -> [(i32, i32); 2] {
        let (at_start, at_end) = ends(random);
        let first = self.first + sign * shift * at_start;
        let last = self.last + sign * shift * at_end;
        [beyond(random, first, sign), beyond(random, last, sign)]
    }

    pub fn ahead(&self, random: &mut Random, shift: i32) -> [(i32, i32); 2] {
        self.side(random, self.sign, shift)
    }

    fn behind(&self, random: &mut Random, shift: i32) -> [(i32, i32); 2] {
        self.side(random, -self.sign, shift)
    }
}

pub fn moving(random: &mut Random) -> Case {
    until_built(random, try_moving)
}

fn try_moving(random: &mut Random) -> Option<Case> {
    let minute = random.between(0, MINUTE - 1);
    let start = random.between(minute, MINUTE - 1);
    let end = random.between(start + 1, MINUTE);
    let k = random.between(2, 1_000);
    let share = Share { minute, start, end, n: numerator(random, k), k };
    (!share.on_a_whole_minute()).then_some(())?;
    let (enters, leaves) = (share.crossing(random)?, share.crossing(random)?);
    let grazes = random.coin();
    let shift = shift(random, grazes);
    let entered = enters.ahead(random, shift.enters);
    let left = leaves.behind(random, shift.leaves);
    let ((x, xs), (y, ys)) =
        if random.coin() { ((enters, entered), (leaves, left)) } else { ((leaves, left), (enters, entered)) };
    let (expiry, named) = expiry(random, share.whole_minute() + 1, grazes);
    let report = Report {
        id: random.between(1, i32::MAX),
        x: x.reported,
        y: y.reported,
        vx: x.velocity,
        vy: y.velocity,
        minute,
        expiry,
    };
    let first = Rectangle::of(xs[0], ys[0]);
    let last = Rectangle::of(xs[1], ys[1]);
    let query = Query { start, end, first, last };
    Some(Case { question: Question { report, query }, known: Some(grazes as i32), named })
}
