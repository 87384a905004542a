//! Queries that have something to do with the cells that are live.

use super::line::{Line, GREATEST};
use super::model::Desk;
use crate::question::{Kind, Query, Rectangle, MINUTE, POSITION, QUERY_NUMBERS};
use crate::random::Random;
use crate::tables::worlds::Cell;

pub fn kind(random: &mut Random) -> Kind {
    if random.coin() {
        Kind::Window
    } else {
        Kind::Moving
    }
}

fn fitted(kind: Kind, mut query: Query) -> Line {
    if kind == Kind::Window {
        query.last = query.first;
    }
    Line::Query { kind, query }
}

/// Rectangles within a reach, for some minutes from the clock on.
pub fn within(random: &mut Random, desk: &Desk, reach: i32, minutes: i32) -> Line {
    let start = (desk.clock() + random.between(0, minutes)).min(MINUTE);
    let end = (start + random.between(0, minutes)).min(MINUTE);
    let mut rectangle = || Rectangle::of(random.ordered(-reach, reach), random.ordered(-reach, reach));
    let (first, last) = (rectangle(), rectangle());
    fitted(kind(random), Query { start, end, first, last })
}

/// Everywhere, from the clock on.
pub fn everywhere(random: &mut Random, desk: &Desk) -> Line {
    let all = Rectangle::of((-POSITION, POSITION), (-POSITION, POSITION));
    let query = Query { start: desk.clock(), end: MINUTE, first: all, last: all };
    fitted(kind(random), query)
}

/// At a live cell: the rectangle touches it or misses it by one, at the start or on the way, and
/// before its expiry, in that very minute or just after it.
pub fn aimed(random: &mut Random, desk: &Desk) -> Line {
    let live = &desk.model.cells;
    if live.is_empty() {
        return within(random, desk, POSITION, 10);
    }
    let cell = live[random.place(live.len())];
    let expiry = cell.expiry;
    let inside = random.between(desk.clock(), expiry - 1);
    let start = random.one_of(&[desk.clock(), inside, expiry - 1, expiry, expiry + 1]).min(MINUTE);
    let soon = start + random.between(0, 5);
    let end = random.one_of(&[start, soon, soon, expiry, MINUTE]).clamp(start, MINUTE);
    let on_the_way = random.between(start, end);
    let touched = random.one_of(&[start, start, on_the_way, end]);
    let first = near(random, &cell, touched);
    let query = Query { start, end, first, last: near(random, &cell, end) };
    fitted(kind(random), query)
}

fn near(random: &mut Random, cell: &Cell, minute: i32) -> Rectangle {
    Rectangle::of(touching(random, cell.x_at(minute)), touching(random, cell.y_at(minute)))
}

/// An interval that has the place as an end, or inside, or is one off.
fn touching(random: &mut Random, place: i32) -> (i32, i32) {
    let width = random.one_of(&[0, 0, 1, 3, 50, 4_000]);
    let off = random.one_of(&[0, 0, 0, 1, -1]);
    let low = random.one_of(&[place, place - width, place - width / 2]) + off;
    let within = |edge: i32| edge.clamp(-POSITION, POSITION);
    (within(low), within(low + width))
}

/// Any set of reasons to refuse it: numbers far out, a start before the clock, edges the wrong way.
pub fn spoiled(random: &mut Random, line: &Line) -> Line {
    let Line::Query { kind, query } = *line else {
        return *line;
    };
    let mut numbers: [i32; QUERY_NUMBERS] = query.numbers();
    for _ in 0..random.between(1, 3) {
        let at = random.place(QUERY_NUMBERS);
        let other = random.place(QUERY_NUMBERS);
        match random.between(0, 3) {
            0 => {
                numbers[at] =
                    random.one_of(&[GREATEST, -GREATEST, POSITION + 1, -POSITION - 1, MINUTE + 1, -1])
            }
            1 => numbers.swap(at, other),
            2 => numbers[0] = random.between(0, numbers[0].max(0)),
            _ => numbers[1] = random.between(-1, numbers[0].max(-1)),
        }
    }
    Line::Query { kind, query: Query::from_numbers(kind, &numbers) }
}
