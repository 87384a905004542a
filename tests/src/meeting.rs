//! Whether what moves meets a query, computed exactly and by trying instants.
//!
//! `holds_at` is the rule itself, at one given instant. All of its conditions but one have the
//! form "a + b × t is at least 0" for the instant t, and t is not before the start. That one is
//! "before the expiry": it leaves its end out, but it holds at everything earlier than an instant
//! at which it holds. So the instants at which all of them hold make up an interval that may lack
//! its last instant and never its first: if there is one at all there is an earliest. The
//! earliest is the start, or else some condition fails at each instant shortly before it and
//! holds at it, which makes that condition's a + b × t exactly 0 there, with b not 0. It can't be
//! "not after the end" or "before the expiry", since those hold at everything earlier. So it is
//! an instant at which an edge of what moves stands exactly on the line of the query's opposite
//! edge. Hence it is enough to try the start and these instants, at most five; and a candidate
//! that `holds_at` takes is a meeting, whichever way it was found.
//!
//! A cell is a rectangle whose low and high edges are the same.

use crate::question::{Query, Question, Report};

/// The fraction p/q of minutes, with q at least 1.
#[derive(Clone, Copy, Debug, PartialEq, Eq)]
pub struct Instant {
    pub p: i128,
    pub q: i128,
}

impl Instant {
    pub fn whole(minute: i32) -> Instant {
        Instant { p: minute as i128, q: 1 }
    }

    /// Start and end count.
    pub fn is_in(&self, query: &Query) -> bool {
        query.start as i128 * self.q <= self.p && self.p <= query.end as i128 * self.q
    }

    /// The minute itself is not before it.
    pub fn is_before(&self, minute: i32) -> bool {
        self.p < minute as i128 * self.q
    }
}

/// A coordinate that is `reported` at `minute`, and from there goes straight on.
#[derive(Clone, Copy)]
struct Coordinate {
    reported: i128,
    velocity: i128,
    minute: i128,
}

/// What moves: on each axis a low and a high edge, and the minute from which on it counts no more.
pub struct Body {
    x: [Coordinate; 2],
    y: [Coordinate; 2],
    expiry: i32,
}

/// One edge of the query: `first` at `start`, and `last` after `length` minutes more.
struct Edge {
    first: i128,
    last: i128,
    start: i128,
    length: i128,
}

/// One axis: what moves, and the query's edges that it must touch the space between.
struct Axis {
    moved: [Coordinate; 2],
    low: Edge,
    high: Edge,
}

impl Edge {
    /// A query of one instant has a rectangle that stands still, so any length does for it.
    fn of(query: &Query, first: i32, last: i32) -> Edge {
        let length = (query.end as i128 - query.start as i128).max(1);
        Edge { first: first as i128, last: last as i128, start: query.start as i128, length }
    }

    /// Where the edge is at the instant, times q × length.
    fn scaled(&self, at: Instant) -> i128 {
        self.first * self.length * at.q + (self.last - self.first) * (at.p - self.start * at.q)
    }
}

impl Coordinate {
    fn of(reported: i32, velocity: i32, minute: i32) -> Coordinate {
        Coordinate { reported: reported as i128, velocity: velocity as i128, minute: minute as i128 }
    }

    /// Where it is at the instant, times q × length.
    fn scaled(&self, at: Instant, length: i128) -> i128 {
        (self.reported * at.q + self.velocity * (at.p - self.minute * at.q)) * length
    }

    /// The one instant at which it is on the edge; none if it keeps its distance from it.
    fn reaches(&self, edge: &Edge) -> Option<Instant> {
        let ahead_at_0 = (self.reported - self.velocity * self.minute) * edge.length
            - edge.first * edge.length
            + (edge.last - edge.first) * edge.start;
        let gain_per_minute = self.velocity * edge.length - (edge.last - edge.first);
        match gain_per_minute {
            0 => None,
            gain if gain > 0 => Some(Instant { p: -ahead_at_0, q: gain }),
            loss => Some(Instant { p: ahead_at_0, q: -loss }),
        }
    }
}

impl Body {
    pub fn cell(report: &Report) -> Body {
        let x = Coordinate::of(report.x, report.vx, report.minute);
        let y = Coordinate::of(report.y, report.vy, report.minute);
        Body { x: [x, x], y: [y, y], expiry: report.expiry }
    }

    /// A row an axis: low and high edge at minute 0, low and high velocity.
    pub fn rows(rows: [[i32; 4]; 2], expiry: i32) -> Body {
        let [x, y] =
            rows.map(|[low, high, slow, fast]| [Coordinate::of(low, slow, 0), Coordinate::of(high, fast, 0)]);
        Body { x, y, expiry }
    }

    fn axes(&self, query: &Query) -> [Axis; 2] {
        let (first, last) = (&query.first, &query.last);
        let x = Axis {
            moved: self.x,
            low: Edge::of(query, first.xlow, last.xlow),
            high: Edge::of(query, first.xhigh, last.xhigh),
        };
        let y = Axis {
            moved: self.y,
            low: Edge::of(query, first.ylow, last.ylow),
            high: Edge::of(query, first.yhigh, last.yhigh),
        };
        [x, y]
    }

    /// Whether the instant is in the query and before the expiry, with x and y both touching the
    /// rectangle at it.
    fn holds_at(&self, query: &Query, axes: &[Axis; 2], at: Instant) -> bool {
        at.is_in(query) && at.is_before(self.expiry) && touch_at(axes, at)
    }

    /// Whether x and y both touch the rectangle at the instant, in the query or not, alive or not.
    pub fn touches_at(&self, query: &Query, at: Instant) -> bool {
        touch_at(&self.axes(query), at)
    }

    /// Whether there is an instant at which all of it holds, for a query that is not refused.
    pub fn meets(&self, query: &Query) -> bool {
        let axes = self.axes(query);
        candidates(query, &axes).any(|candidate| self.holds_at(query, &axes, candidate))
    }

    /// The earliest instant at which all of it holds.
    pub fn earliest(&self, query: &Query) -> Option<Instant> {
        let axes = self.axes(query);
        let sooner =
            |one: Instant, other: Instant| if other.p * one.q < one.p * other.q { other } else { one };
        candidates(query, &axes).filter(|&candidate| self.holds_at(query, &axes, candidate)).reduce(sooner)
    }
}

/// The instants of which one is the earliest, if there is any.
fn candidates(query: &Query, [x, y]: &[Axis; 2]) -> impl Iterator<Item = Instant> {
    std::iter::once(Some(Instant::whole(query.start)))
        .chain(x.instants_on_an_edge())
        .chain(y.instants_on_an_edge())
        .flatten()
}

fn touch_at(axes: &[Axis; 2], at: Instant) -> bool {
    axes.iter().all(|axis| axis.touches_at(at))
}

impl Axis {
    fn touches_at(&self, at: Instant) -> bool {
        let [low, high] = self.moved.map(|edge| edge.scaled(at, self.low.length));
        low <= self.high.scaled(at) && self.low.scaled(at) <= high
    }

    fn instants_on_an_edge(&self) -> [Option<Instant>; 2] {
        let [low, high] = &self.moved;
        [low.reaches(&self.high), high.reaches(&self.low)]
    }
}

/// Whether the cell of a question that is not refused meets its query.
pub fn meets(question: &Question) -> bool {
    Body::cell(&question.report).meets(&question.query)
}
