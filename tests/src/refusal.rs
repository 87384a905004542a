//! The numbers of the refusals, and what a meeting call must answer.

use crate::meeting::meets;
use crate::question::{Kind, Query, Question, Rectangle, QUERY_AT, RANGES};

pub const NO: i32 = 0;
pub const YES: i32 = 1;
pub const NOT_SOUND: i32 = 1;
pub const BAD_CAPACITY: i32 = 2;
pub const SHORT_TABLE: i32 = 3;
pub const OUT_OF_RANGE: i32 = 4;
pub const BEFORE_CLOCK: i32 = 5;
pub const EXPIRES_FIRST: i32 = 6;
pub const BACKWARD: i32 = 7;
pub const NOT_LIVE: i32 = 8;
pub const FULL: i32 = 9;
pub const SHORT_LIST: i32 = 10;
pub const BAD_HEADER: i32 = 11;
pub const BAD_RECORD: i32 = 12;
pub const SHORT_BYTES: i32 = 13;
pub const NO_TRACK: i32 = 14;

/// The desk's model calls it so.
pub const LIST_TOO_SHORT: i32 = SHORT_LIST;

fn out_of_range(kind: Kind, question: &Question) -> bool {
    let numbers = question.numbers();
    (0..kind.numbers()).any(|i| numbers[i] < RANGES[i].0 || numbers[i] > RANGES[i].1)
}

fn inside_out(rectangle: &Rectangle) -> bool {
    rectangle.xlow > rectangle.xhigh || rectangle.ylow > rectangle.yhigh
}

fn backward(kind: Kind, query: &Query) -> bool {
    query.end < query.start
        || inside_out(&query.first)
        || inside_out(&query.last)
        || (kind == Kind::Moving && query.start == query.end)
}

/// The first refusal that applies; else 1 if the cell meets the query and 0 if not.
pub fn answer(kind: Kind, question: &Question) -> i32 {
    if out_of_range(kind, question) {
        OUT_OF_RANGE
    } else if question.query.start < question.report.minute {
        BEFORE_CLOCK
    } else if question.report.expiry <= question.report.minute {
        EXPIRES_FIRST
    } else if backward(kind, &question.query) {
        BACKWARD
    } else if meets(question) {
        YES
    } else {
        NO
    }
}

/// Why a sound table at this clock refuses a query, whatever the list.
pub fn query_refusal(kind: Kind, clock: i32, query: &Query) -> Option<i32> {
    let ranges = &RANGES[QUERY_AT..kind.numbers()];
    let inside = |(number, (least, greatest)): (&i32, &(i32, i32))| least <= number && number <= greatest;
    if !query.numbers().iter().zip(ranges).all(inside) {
        Some(OUT_OF_RANGE)
    } else if query.start < clock {
        Some(BEFORE_CLOCK)
    } else if backward(kind, query) {
        Some(BACKWARD)
    } else {
        None
    }
}
