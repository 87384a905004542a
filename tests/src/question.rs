//! What is asked: a report of a cell, and a query that it may meet.

#[derive(Clone, Copy, Debug, PartialEq, Eq)]
pub struct Report {
    pub id: i32,
    pub x: i32,
    pub y: i32,
    pub vx: i32,
    pub vy: i32,
    pub minute: i32,
    pub expiry: i32,
}

#[derive(Clone, Copy, Debug, PartialEq, Eq)]
pub struct Rectangle {
    pub xlow: i32,
    pub xhigh: i32,
    pub ylow: i32,
    pub yhigh: i32,
}

/// The rectangle goes straight from `first` at `start` to `last` at `end`. A window's stands
/// still: both are the same.
#[derive(Clone, Copy, Debug, PartialEq, Eq)]
pub struct Query {
    pub start: i32,
    pub end: i32,
    pub first: Rectangle,
    pub last: Rectangle,
}

#[derive(Clone, Copy, Debug, PartialEq, Eq)]
pub struct Question {
    pub report: Report,
    pub query: Query,
}

#[derive(Clone, Copy, Debug, PartialEq, Eq)]
pub enum Kind {
    Window,
    Moving,
}

pub const POSITION: i32 = 100_000;
pub const VELOCITY: i32 = 512;
pub const MINUTE: i32 = 1_440;

/// How many numbers a moving query's call takes; a window's takes the first 13 of them.
pub const NUMBERS: usize = 17;

/// Where the numbers of the query begin in a call that has a report as well.
pub const QUERY_AT: usize = 7;

pub const QUERY_NUMBERS: usize = NUMBERS - QUERY_AT;

impl Kind {
    pub fn numbers(self) -> usize {
        match self {
            Kind::Window => 13,
            Kind::Moving => NUMBERS,
        }
    }
}

impl Report {
    /// The numbers in the order of the call.
    pub fn numbers(&self) -> [i32; QUERY_AT] {
        [self.id, self.x, self.y, self.vx, self.vy, self.minute, self.expiry]
    }

    /// The report whose call has these numbers.
    pub fn from_numbers(n: &[i32; QUERY_AT]) -> Report {
        Report { id: n[0], x: n[1], y: n[2], vx: n[3], vy: n[4], minute: n[5], expiry: n[6] }
    }
}

impl Query {
    pub fn window(start: i32, end: i32, rectangle: Rectangle) -> Query {
        Query { start, end, first: rectangle, last: rectangle }
    }

    /// The numbers in the order of the call; a window's call takes the first 6 of them.
    pub fn numbers(&self) -> [i32; QUERY_NUMBERS] {
        let (f, l) = (self.first, self.last);
        [self.start, self.end, f.xlow, f.xhigh, f.ylow, f.yhigh, l.xlow, l.xhigh, l.ylow, l.yhigh]
    }

    /// The query whose call has these numbers; a window has no use for the last four.
    pub fn from_numbers(kind: Kind, n: &[i32; QUERY_NUMBERS]) -> Query {
        let first = Rectangle { xlow: n[2], xhigh: n[3], ylow: n[4], yhigh: n[5] };
        let last = match kind {
            Kind::Window => first,
            Kind::Moving => Rectangle { xlow: n[6], xhigh: n[7], ylow: n[8], yhigh: n[9] },
        };
        Query { start: n[0], end: n[1], first, last }
    }
}

impl Rectangle {
    pub fn of(x: (i32, i32), y: (i32, i32)) -> Rectangle {
        Rectangle { xlow: x.0, xhigh: x.1, ylow: y.0, yhigh: y.1 }
    }
}

impl Question {
    /// The numbers in the order of the call.
    pub fn numbers(&self) -> [i32; NUMBERS] {
        let mut numbers = [0; NUMBERS];
        numbers[..QUERY_AT].copy_from_slice(&self.report.numbers());
        numbers[QUERY_AT..].copy_from_slice(&self.query.numbers());
        numbers
    }

    /// The question whose call has these numbers; a window has no use for the last four.
    pub fn from_numbers(kind: Kind, n: &[i32; NUMBERS]) -> Question {
        let (report, query) = n.split_at(QUERY_AT);
        let report = Report::from_numbers(report.try_into().expect("as many as a report has"));
        let query = query.try_into().expect("as many as a query has");
        Question { report, query: Query::from_numbers(kind, query) }
    }
}

/// The least and the greatest that each number of a call may be, in the call's order.
pub const RANGES: [(i32, i32); NUMBERS] = [
    (1, i32::MAX),
    (-POSITION, POSITION),
    (-POSITION, POSITION),
    (-VELOCITY, VELOCITY),
    (-VELOCITY, VELOCITY),
    (0, MINUTE),
    (0, MINUTE),
    (0, MINUTE),
    (0, MINUTE),
    (-POSITION, POSITION),
    (-POSITION, POSITION),
    (-POSITION, POSITION),
    (-POSITION, POSITION),
    (-POSITION, POSITION),
    (-POSITION, POSITION),
    (-POSITION, POSITION),
    (-POSITION, POSITION),
];
