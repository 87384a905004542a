//! Checks the exact computation itself, with no library: on the tracks whose answers are given or
//! worked out by hand, and against a search through every fraction on small numbers, for cells and for
//! entries. The search has the rule in words of its own.

use outside::families;
use outside::meeting::Body;
use outside::question::{Kind, Query, Question, Rectangle, Report};
use outside::random::Random;
use outside::refusal::answer;
use outside::tally::Tally;
use std::collections::BTreeMap;
use std::process::ExitCode;

const SEARCHES: u32 = 80_000;

/// How many of them must be of each kind that is counted.
const FEWEST: u32 = 40;

struct Track {
    name: &'static str,
    kind: Kind,
    report: [i32; 7],
    query: Query,
    answer: i32,
}

const fn at(xlow: i32, xhigh: i32, ylow: i32, yhigh: i32) -> Rectangle {
    Rectangle { xlow, xhigh, ylow, yhigh }
}

const fn window(start: i32, end: i32, rectangle: Rectangle) -> Query {
    Query { start, end, first: rectangle, last: rectangle }
}

const fn given(name: &'static str, report: [i32; 7], query: Query, answer: i32) -> Track {
    Track { name, kind: Kind::Window, report, query, answer }
}

const fn chased(name: &'static str, report: [i32; 7], answer: i32) -> Track {
    Track { name, kind: Kind::Moving, report, query: CHASE, answer }
}

const CELL_7: [i32; 7] = [7, 100, 200, 5, -3, 10, 40];
const CHASE: Query = Query { start: 0, end: 10, first: at(0, 2, 0, 0), last: at(20, 22, 0, 0) };

/// Goes through (119, 119) a third of a minute before its expiry, and through (120, 120) at it.
const THIRDS: [i32; 7] = [1, 0, 0, 3, 3, 0, 40];

/// Comes to 80 at its expiry, after 80 halves of a minute.
const HALVES: [i32; 7] = [1, 0, 0, 2, 0, 0, 40];

/// Expires in the minute of its report.
const NO_LIFE: [i32; 7] = [1, 0, 0, 0, 0, 10, 10];

const TRACKS: &[Track] = &[
    given("P1", THIRDS, window(0, 1, at(1, 1, 1, 1)), 1),
    given("P2", [1, 0, 0, 1, 2, 0, 40], window(0, 5, at(2, 3, 2, 3)), 0),
    given("P3", CELL_7, window(40, 40, at(250, 250, 110, 110)), 0),
    given("P4", CELL_7, window(41, 41, at(255, 255, 107, 107)), 0),
    chased("P5", [1, 1, 0, 2, 0, 0, 40], 1),
    chased("P6", [1, 3, 0, 2, 0, 0, 40], 0),
    chased("P7", [1, 3, 0, 1, 0, 0, 40], 1),
    given("P3, a minute sooner", CELL_7, window(39, 39, at(245, 245, 113, 113)), 1),
    given("P3, to the expiry", CELL_7, window(30, 40, at(250, 250, 110, 110)), 0),
    given("P3, past the expiry", CELL_7, window(30, 50, at(250, 250, 110, 110)), 0),
    given("a third before the expiry", THIRDS, window(39, 40, at(119, 119, 119, 119)), 1),
    given("three thirds, at the expiry", THIRDS, window(39, 40, at(120, 120, 120, 120)), 0),
    given("79 halves of a minute", HALVES, window(0, 60, at(79, 90, 0, 0)), 1),
    given("80 halves of a minute", HALVES, window(0, 60, at(80, 90, 0, 0)), 0),
    given("inside until the expiry", HALVES, window(0, 40, at(-9, 90, 0, 0)), 1),
    given("inside, from the expiry on", HALVES, window(40, 60, at(-9, 90, 0, 0)), 0),
    chased("P7, expired as it comes", [1, 3, 0, 1, 0, 0, 1], 0),
    chased("P7, expired a minute later", [1, 3, 0, 1, 0, 0, 2], 1),
    given("6: expiry, minute and start alike", NO_LIFE, window(10, 10, at(0, 0, 0, 0)), 6),
    given("6 before 7", NO_LIFE, window(10, 9, at(0, 0, 0, 0)), 6),
    given("5 before 6", NO_LIFE, window(9, 10, at(0, 0, 0, 0)), 5),
    given("4 before 6", NO_LIFE, window(10, 1_441, at(0, 0, 0, 0)), 4),
    given(
        "6 at the last minute of all",
        [1, 0, 0, 0, 0, 1_440, 1_440],
        window(1_440, 1_440, at(0, 0, 0, 0)),
        6,
    ),
    given(
        "just before the last minute of all",
        [1, 0, 0, 1, 0, 1_439, 1_440],
        window(1_439, 1_440, at(0, 1, 0, 0)),
        1,
    ),
];

fn track_agrees(track: &Track) -> bool {
    let [id, x, y, vx, vy, minute, expiry] = track.report;
    let report = Report { id, x, y, vx, vy, minute, expiry };
    let computed = answer(track.kind, &Question { report, query: track.query });
    if computed != track.answer {
        println!("FAILED {}: computed {computed}", track.name);
    }
    computed == track.answer
}

/// The fraction n/d, with d at least 1.
#[derive(Clone, Copy)]
struct Fraction {
    n: i64,
    d: i64,
}

impl Fraction {
    fn whole(n: i32) -> Fraction {
        Fraction { n: n.into(), d: 1 }
    }

    fn plus(self, other: Fraction) -> Fraction {
        Fraction { n: self.n * other.d + other.n * self.d, d: self.d * other.d }
    }

    /// What has gone by since the minute.
    fn since(self, minute: i32) -> Fraction {
        self.plus(Fraction::whole(-minute))
    }

    fn times(self, factor: i32) -> Fraction {
        Fraction { n: self.n * i64::from(factor), ..self }
    }

    /// A part of so many; they are at least one.
    fn over(self, parts: i32) -> Fraction {
        Fraction { d: self.d * i64::from(parts), ..self }
    }

    fn is_below(self, other: Fraction) -> bool {
        self.n * other.d < other.n * self.d
    }

    fn is_within(self, low: Fraction, high: Fraction) -> bool {
        !self.is_below(low) && !high.is_below(self)
    }
}

/// What moves, by its numbers: on each axis a low and a high edge at a minute, and their velocities.
struct Moved {
    rows: [[i32; 4]; 2],
    minute: i32,
    expiry: i32,
}

impl Moved {
    fn cell(question: &Question) -> Moved {
        let Report { x, y, vx, vy, minute, expiry, .. } = question.report;
        Moved { rows: [[x, x, vx, vx], [y, y, vy, vy]], minute, expiry }
    }

    /// An entry as small as the cell of the question.
    fn entry(question: &Question, random: &mut Random) -> Moved {
        let rows = [0, 1].map(|_| {
            let (low, high) = random.ordered(-6, 6);
            let (slow, fast) = random.ordered(-3, 3);
            [low, high, slow, fast]
        });
        Moved { rows, minute: 0, expiry: question.report.expiry }
    }

    /// The rule at one instant: from the query's start to its end, strictly before the expiry, with x
    /// and y both touching the rectangle, edges counted.
    fn meets_at(&self, query: &Query, instant: Fraction) -> bool {
        instant.is_within(Fraction::whole(query.start), Fraction::whole(query.end))
            && instant.is_below(Fraction::whole(self.expiry))
            && self.touches_at(query, instant)
    }

    fn touches_at(&self, query: &Query, instant: Fraction) -> bool {
        let (first, last) = (&query.first, &query.last);
        let edges = [
            [(first.xlow, last.xlow), (first.xhigh, last.xhigh)],
            [(first.ylow, last.ylow), (first.yhigh, last.yhigh)],
        ];
        self.rows.iter().zip(edges).all(|(&[low, high, slow, fast], edges)| {
            let moved = |place: i32, velocity: i32| {
                Fraction::whole(place).plus(instant.since(self.minute).times(velocity))
            };
            let [from, to] = edges.map(|(first, last)| edge_at(query, first, last, instant));
            // Neither lies wholly above the other.
            !to.is_below(moved(low, slow)) && !moved(high, fast).is_below(from)
        })
    }

    /// Tries every fraction of the query whose denominator is at most `finest`.
    fn found_by_search(&self, query: &Query, finest: i32) -> bool {
        (1..=finest).any(|d| {
            let mut instants = query.start * d..=query.end * d;
            instants.any(|n| self.meets_at(query, Fraction { n: n.into(), d: d.into() }))
        })
    }

    /// Whether it is in the rectangle at its expiry, which is an instant of the query.
    fn touches_at_its_expiry(&self, query: &Query) -> bool {
        (query.start..=query.end).contains(&self.expiry)
            && self.touches_at(query, Fraction::whole(self.expiry))
    }
}

/// Where an edge is that goes straight from the first place at the query's start to the last at its end.
fn edge_at(query: &Query, first: i32, last: i32, instant: Fraction) -> Fraction {
    if first == last {
        return Fraction::whole(first);
    }
    let share = instant.since(query.start).over(query.end - query.start);
    Fraction::whole(first).plus(share.times(last - first))
}

/// With small numbers an edge gains at most 30 parts a minute on one of the query's, counted in
/// parts of one over the query's length: 6 minutes times velocity 3, and 12 for the query's edge's
/// own way. So the earliest meeting, if there is one, has a denominator of at most 30.
const FINEST: i32 = 30;

const NO: &str = "no";
const YES: &str = "yes";
const AT_EXPIRY: &str = "no, touched at the expiry and not before";
const EXPIRED_AT_START: &str = "no, touched at the start, which is the expiry";
const JUST_BEFORE: &str = "yes, at a fraction in the minute before the expiry and not before";

/// What a search came to.
fn described(body: &Body, moved: &Moved, query: &Query, searched: bool) -> Vec<&'static str> {
    if !searched {
        let at_expiry = moved.touches_at_its_expiry(query);
        let at_start = at_expiry && moved.expiry == query.start;
        let said = [(true, NO), (at_expiry && !at_start, AT_EXPIRY), (at_start, EXPIRED_AT_START)];
        return said.into_iter().filter_map(|(is, name)| is.then_some(name)).collect();
    }
    let earliest = body.earliest(query);
    let just_before = earliest.is_some_and(|at| at.p % at.q != 0 && !at.is_before(moved.expiry - 1));
    if just_before {
        vec![YES, JUST_BEFORE]
    } else {
        vec![YES]
    }
}

fn search_agrees(kind: Kind, of_entries: bool) -> bool {
    let name = if of_entries { "entries" } else { "cells" };
    let mut random = Random::seeded(0x3000);
    let mut counts: BTreeMap<&str, u32> = BTreeMap::new();
    for _ in 0..SEARCHES {
        let question = families::small_and_accepted(&mut random, kind);
        let query = &question.query;
        let (moved, body) = if of_entries {
            let moved = Moved::entry(&question, &mut random);
            let body = Body::rows(moved.rows, moved.expiry);
            (moved, body)
        } else {
            (Moved::cell(&question), Body::cell(&question.report))
        };
        let searched = moved.found_by_search(query, FINEST);
        for point in described(&body, &moved, query, searched) {
            *counts.entry(point).or_insert(0) += 1;
        }
        if body.meets(query) != searched || body.earliest(query).is_some() != searched {
            println!("FAILED {name}, search says {searched}: {:?}", question.numbers());
            return false;
        }
    }
    println!("{kind:?} small {name}, searched: {counts:?}");
    let all = [NO, YES, AT_EXPIRY, EXPIRED_AT_START, JUST_BEFORE];
    all.iter().all(|point| counts.get(point).is_some_and(|&count| count >= FEWEST))
}

fn main() -> ExitCode {
    let mut tally = Tally::default();
    for track in TRACKS {
        tally.check(track_agrees(track));
    }
    for kind in [Kind::Window, Kind::Moving] {
        tally.check(search_agrees(kind, false));
        tally.check(search_agrees(kind, true));
    }
    tally.report()
}
