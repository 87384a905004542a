//! Queries that have something to do with the table that they are put to.

use super::builder::Table;
use super::reading;
use super::scan::Asked;
use crate::question::{Kind, Query, Rectangle, MINUTE, POSITION, QUERY_AT, QUERY_NUMBERS, RANGES};
use crate::random::Random;
use crate::refusal::{BACKWARD, BEFORE_CLOCK, OUT_OF_RANGE};

pub const KINDS: [Kind; 2] = [Kind::Window, Kind::Moving];

const START: usize = 0;
const END: usize = 1;
const FIRST_EDGES: usize = 2;

/// How many numbers of a query the call takes.
pub fn numbers(kind: Kind) -> usize {
    kind.numbers() - QUERY_AT
}

/// A query that is not refused, unless it is a moving one at the last minute of all.
pub fn accepted(random: &mut Random, table: &Table, kind: Kind) -> Asked {
    let query = match random.between(0, 9) {
        0 => anywhere(random, table.clock),
        1 => everywhere(table.clock),
        2 => at_an_expiry(random, table, kind),
        _ => aimed(random, table),
    };
    Asked { kind, query: fitted(query, kind) }
}

/// A window's rectangle stands still; a moving query has two minutes at least.
fn fitted(mut query: Query, kind: Kind) -> Query {
    match kind {
        Kind::Window => query.last = query.first,
        Kind::Moving if query.end == query.start => {
            if query.end < MINUTE {
                query.end += 1;
            }
        }
        Kind::Moving => {}
    }
    query
}

fn anywhere(random: &mut Random, clock: i32) -> Query {
    let (start, end) = random.ordered(clock, MINUTE);
    let mut rectangle =
        || Rectangle::of(random.ordered(-POSITION, POSITION), random.ordered(-POSITION, POSITION));
    Query { start, end, first: rectangle(), last: rectangle() }
}

fn everywhere(clock: i32) -> Query {
    let all = (-POSITION, POSITION);
    Query::window(clock, MINUTE, Rectangle::of(all, all))
}

/// At a cell or an entry, around the minutes that matter to it.
fn aimed(random: &mut Random, table: &Table) -> Query {
    let Some((rows, expiry)) = some_body(random, table) else {
        return anywhere(random, table.clock);
    };
    let clock = table.clock;
    let expiry = expiry.clamp(clock, MINUTE);
    let within = random.between(clock, expiry);
    let start = random.one_of(&[clock, within, within, expiry, expiry + 1, expiry - 1]).clamp(clock, MINUTE);
    let soon = start + random.between(0, 6);
    let end = random.one_of(&[start, start + 1, soon, soon, expiry, MINUTE]).clamp(start, MINUTE);
    let first_at = if random.coin() { start } else { random.between(start, end) };
    let first = rectangle_near(random, &rows, first_at);
    let last = rectangle_near(random, &rows, end);
    Query { start, end, first, last }
}

/// At a cell that comes to the rectangle in the very minute of its expiry, or some parts of a minute
/// sooner.
fn at_an_expiry(random: &mut Random, table: &Table, kind: Kind) -> Query {
    let clock = table.clock;
    let mut cells = table.cells.clone();
    cells.retain(|cell| cell.expiry >= clock);
    if cells.is_empty() {
        return aimed(random, table);
    }
    let cell = cells[random.place(cells.len())];
    let expiry = cell.expiry;
    let within = random.between(clock, expiry);
    let start = random.one_of(&[expiry, expiry - 1, within]).max(clock);
    let later = random.between(expiry, MINUTE);
    let end = random.one_of(&[expiry, expiry, expiry, later]);
    let on_x = random.coin();
    let [x, y] =
        [(cell.vx, cell.x_at(start), cell.x_at(expiry)), (cell.vy, cell.y_at(start), cell.y_at(expiry))];
    let (comes, stays) = if on_x { (x, y) } else { (y, x) };
    let reached = comes_to(random, comes);
    let all_along = around(random, stays);
    let rectangle = |reached: (i32, i32)| match on_x {
        true => Rectangle::of(reached, all_along),
        false => Rectangle::of(all_along, reached),
    };
    let last = rectangle(reached);
    let from_ahead = kind == Kind::Moving && end == expiry && random.coin();
    let first = if from_ahead { rectangle(ahead(random, comes, reached)) } else { last };
    Query { start, end, first, last }
}

/// The velocity of a coordinate, where it is at the start, and where it is at the expiry.
type Way = (i32, i32, i32);

/// An interval that the coordinate enters at the expiry, or some units of its way sooner.
fn comes_to(random: &mut Random, (velocity, _, place): Way) -> (i32, i32) {
    let sign = velocity.signum();
    let edge = place - sign * random.one_of(&[0, 0, 0, 1, 1, 2, 5]);
    let width = random.one_of(&[0, 0, 1, 5, 100]);
    in_the_plane(edge.min(edge + sign * width), edge.max(edge + sign * width))
}

/// The same interval, moved to where the coordinate has it before it at the start.
fn ahead(random: &mut Random, (velocity, from, _): Way, (low, high): (i32, i32)) -> (i32, i32) {
    let gap = random.between(1, 9);
    let by = if velocity < 0 { from - gap - high } else { from + gap - low };
    in_the_plane(low + by, high + by)
}

/// Where the coordinate is from the start to the expiry, and some more.
fn around(random: &mut Random, (_, from, to): Way) -> (i32, i32) {
    let more = random.one_of(&[0, 1, 50]);
    in_the_plane(from.min(to) - more, from.max(to) + more)
}

fn in_the_plane(low: i32, high: i32) -> (i32, i32) {
    (low.clamp(-POSITION, POSITION), high.clamp(-POSITION, POSITION))
}

/// Low and high edge and velocity on each axis, and the expiry.
fn some_body(random: &mut Random, table: &Table) -> Option<([[i32; 4]; 2], i32)> {
    let inners = reading::inners(&table.words);
    if !inners.is_empty() && random.coin() {
        return Some(reading::bounds(&table.words, inners[random.place(inners.len())].at));
    }
    if table.cells.is_empty() {
        return None;
    }
    let cell = table.cells[random.place(table.cells.len())];
    Some(([[cell.x, cell.x, cell.vx, cell.vx], [cell.y, cell.y, cell.vy, cell.vy]], cell.expiry))
}

fn rectangle_near(random: &mut Random, rows: &[[i32; 4]; 2], minute: i32) -> Rectangle {
    let [x, y] = rows.map(|[low, high, slow, fast]| near(random, low + slow * minute, high + fast * minute));
    Rectangle::of(x, y)
}

/// An interval that touches the one from low to high, misses it by one, or lies across it.
fn near(random: &mut Random, low: i32, high: i32) -> (i32, i32) {
    let width = random.one_of(&[0, 0, 1, 2, 5, 100, 3_000]);
    let off = random.between(-1, 1);
    let (from, to) = match random.between(0, 5) {
        0 => (high + off, high + off + width),
        1 => (low + off - width, low + off),
        2 => (low - width, high + width),
        3 => (low - random.between(0, 5), low + random.between(0, 5)),
        4 => {
            let point = random.between(low.min(high), high.max(low));
            (point, point + width)
        }
        _ => (low - width + off, low + width + off),
    };
    (from.clamp(-POSITION, POSITION), to.max(from).clamp(-POSITION, POSITION))
}

/// With any set of the reasons to refuse a query, none and all of them too.
pub fn spoiled(random: &mut Random, clock: i32, asked: &Asked) -> Asked {
    // Out of range comes last, so that no other reason puts its argument right again.
    let mut reasons = vec![BEFORE_CLOCK, BACKWARD, OUT_OF_RANGE];
    reasons.retain(|_| random.coin());
    spoiled_by(random, clock, asked, &reasons)
}

pub fn spoiled_by(random: &mut Random, clock: i32, asked: &Asked, reasons: &[i32]) -> Asked {
    let kind = asked.kind;
    let mut changed = asked.query.numbers();
    for &reason in reasons {
        match reason {
            BEFORE_CLOCK => changed[START] = if random.coin() { clock - 1 } else { 0 },
            BACKWARD => turn_backward(random, kind, &mut changed),
            _ => {
                let number = random.place(numbers(kind));
                changed[number] = outside(random, RANGES[QUERY_AT + number]);
            }
        }
    }
    Asked { kind, query: Query::from_numbers(kind, &changed) }
}

fn outside(random: &mut Random, (least, greatest): (i32, i32)) -> i32 {
    random.one_of(&[least - 1, i32::MIN, greatest + 1, i32::MAX])
}

/// Each of the ways in which a query can be backward.
fn turn_backward(random: &mut Random, kind: Kind, changed: &mut [i32; QUERY_NUMBERS]) {
    let pairs = (numbers(kind) - FIRST_EDGES) / 2;
    match (random.place(pairs + 2), kind) {
        (0, Kind::Moving) => changed[END] = changed[START],
        (0, Kind::Window) | (1, _) => changed[END] = changed[START].saturating_sub(1),
        (pair, _) => {
            let low = FIRST_EDGES + 2 * (pair - 2);
            changed[low] = changed[low + 1].saturating_add(1);
        }
    }
}
