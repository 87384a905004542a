//! Queries on sound tables: every number, every list and every count of opened nodes.

use super::Family;
use crate::meeting::Instant;
use crate::question::{Kind, Query, MINUTE};
use crate::random::Random;
use crate::refusal::{query_refusal, BACKWARD, BEFORE_CLOCK, OUT_OF_RANGE, SHORT_LIST};
use crate::tables::builder::{draw, Table};
use crate::tables::library::{Lent, Library};
use crate::tables::queries::{accepted, spoiled, KINDS};
use crate::tables::reading;
use crate::tables::scan::{body, shut_at_the_start, truth_if_sound, Asked, Truth};
use crate::tables::worlds::Cell;
use crate::tally::Tally;

const CAPACITIES: [i32; 10] = [1, 2, 3, 7, 8, 9, 16, 40, 255, 256];
const TABLES: u32 = 100;
const QUERIES: u32 = 40;

pub fn run(library: &Library, tally: &mut Tally) {
    for (place, capacity) in CAPACITIES.into_iter().enumerate() {
        for kind in KINDS {
            let mut random = Random::seeded(0x7000 + place as u64);
            tally.check(capacity_agrees(library, capacity, kind, &mut random));
        }
    }
    for kind in KINDS {
        let mut random = Random::seeded(0x7100);
        tally.check(order_agrees(library, kind, &mut random));
    }
}

fn capacity_agrees(library: &Library, capacity: i32, kind: Kind, random: &mut Random) -> bool {
    let mut family = Family::named(format!("{kind:?} in tables of {capacity}"));
    // Small tables cost little.
    let tables = if capacity <= 40 { 4 * TABLES } else { TABLES };
    for _ in 0..tables {
        let table = draw(random, capacity);
        let mut lent = Lent::of(random, &table.words);
        for _ in 0..QUERIES {
            let asked = accepted(random, &table, kind);
            ask(library, &table, &mut lent, &asked, random, &mut family);
        }
    }
    let mut meant = vec!["no hits", "hits", "refused by 10", "expiry alone kept a cell out"];
    meant.extend([EXPIRED_AT_START, ENDS_AT_EXPIRY, JUST_BEFORE_EXPIRY, ONE_PART_BEFORE_EXPIRY]);
    if kind == Kind::Window {
        meant.push(TIMESLICE_AT_EXPIRY);
    }
    if capacity > 1 {
        meant.push("several hits");
    }
    if capacity >= 9 {
        meant.extend(["all nodes opened", "some nodes opened", "the root alone opened"]);
        meant.extend(["opened in vain", SHUT_AT_START]);
    }
    family.holds(&meant, 40)
}

fn ask(
    library: &Library,
    table: &Table,
    lent: &mut Lent<i32>,
    asked: &Asked,
    random: &mut Random,
    family: &mut Family,
) {
    let truth = truth_if_sound(&table.words, asked);
    describe(table, asked, &truth, family);
    let hits = match &truth {
        Truth::Met { ids, .. } => ids.len(),
        Truth::Refused(_) => 0,
    };
    let mut lengths = vec![hits, hits + 1, hits + random.place(300)];
    if hits > 0 {
        lengths.extend([hits - 1, random.place(hits)]);
    }
    for length in lengths {
        let list = random.rubbish_words(length);
        let mut list = Lent::of(random, &list);
        if length < hits {
            family.count(format!("refused by {SHORT_LIST}"));
        }
        family.note(library.differs(lent, &mut list, asked, &truth));
    }
}

fn describe(table: &Table, asked: &Asked, truth: &Truth, family: &mut Family) {
    match truth {
        Truth::Refused(number) => family.count(format!("refused by {number}")),
        Truth::Met { ids, opened } => {
            family.count(if ids.is_empty() { "no hits" } else { "hits" });
            if ids.len() > 1 {
                family.count("several hits");
            }
            let for_ever = |cell: &&Cell| body(&Cell { expiry: MINUTE + 1, ..**cell }).meets(&asked.query);
            if table.cells.iter().filter(for_ever).count() > ids.len() {
                family.count("expiry alone kept a cell out");
            }
            describe_ends(table, &asked.query, family);
            let nodes = reading::inners(&table.words).len() as i32 + 1;
            if nodes > 1 {
                family.count(match *opened {
                    1 => "the root alone opened",
                    _ if *opened == nodes => "all nodes opened",
                    _ => "some nodes opened",
                });
                if ids.is_empty() && *opened > 1 {
                    family.count("opened in vain");
                }
            }
        }
    }
}

const TIMESLICE_AT_EXPIRY: &str = "no hit by a timeslice at the expiry";
const EXPIRED_AT_START: &str = "no hit where the start is the expiry";
const ENDS_AT_EXPIRY: &str = "no hit where the end is the expiry, and the touch too";
const JUST_BEFORE_EXPIRY: &str = "hit at a fraction in the minute before the expiry";
const ONE_PART_BEFORE_EXPIRY: &str = "hit 1/q before the expiry";
const SHUT_AT_START: &str = "an entry shut, as the start is its greatest expiry";

/// Cells that touch the rectangle at the end of their lives, and entries likewise; each kind once for a
/// query.
fn describe_ends(table: &Table, query: &Query, family: &mut Family) {
    let mut said: Vec<&str> = table.cells.iter().filter_map(|cell| end_of(cell, query)).collect();
    said.sort_unstable();
    said.dedup();
    said.into_iter().for_each(|what| family.count(what));
    if shut_at_the_start(&table.words, reading::root(&table.words), query) {
        family.count(SHUT_AT_START);
    }
}

fn end_of(cell: &Cell, query: &Query) -> Option<&'static str> {
    let (cell, expiry) = (body(cell), cell.expiry);
    let at = Instant::whole(expiry);
    if !at.is_in(query) {
        return None;
    }
    if let Some(Instant { p, q }) = cell.earliest(query) {
        // So many parts in q before the expiry.
        let left = i128::from(expiry) * q - p;
        return match left {
            _ if p % q == 0 || left > q => None,
            _ if q % left == 0 => Some(ONE_PART_BEFORE_EXPIRY),
            _ => Some(JUST_BEFORE_EXPIRY),
        };
    }
    match (query.start, query.end) {
        _ if !cell.touches_at(query, at) => None,
        (start, end) if start == end => Some(TIMESLICE_AT_EXPIRY),
        (start, _) if start == expiry => Some(EXPIRED_AT_START),
        (_, end) if end == expiry => Some(ENDS_AT_EXPIRY),
        _ => None,
    }
}

/// Any set of reasons at once, a list that is too short among them.
fn order_agrees(library: &Library, kind: Kind, random: &mut Random) -> bool {
    let mut family = Family::named(format!("{kind:?}, several refusals"));
    for _ in 0..10 * TABLES {
        let capacity = random.one_of(&CAPACITIES[..8]);
        let table = draw(random, capacity);
        let mut lent = Lent::of(random, &table.words);
        for _ in 0..20 {
            let right = accepted(random, &table, kind);
            let asked = spoiled(random, table.clock, &right);
            let truth = truth_if_sound(&table.words, &asked);
            let list = if random.coin() { Vec::new() } else { random.rubbish_words(60) };
            let mut list = Lent::of(random, &list);
            family.count(format!("number {}", truth.with_list(list.lent()).0.number));
            count_early_and_backward(&table, &asked, &mut family);
            family.note(library.differs(&mut lent, &mut list, &asked, &truth));
        }
    }
    let numbers =
        [0, OUT_OF_RANGE, BEFORE_CLOCK, BACKWARD, SHORT_LIST].map(|number| format!("number {number}"));
    let mut meant: Vec<&str> = numbers.iter().map(String::as_str).collect();
    meant.extend(["4 before 5", "5 before 7"]);
    family.holds(&meant, 100)
}

/// Where a later reason would be given if the earlier were not there.
fn count_early_and_backward(table: &Table, asked: &Asked, family: &mut Family) {
    let at = |clock: i32| query_refusal(asked.kind, clock, &asked.query);
    match (at(table.clock), at(0)) {
        (Some(OUT_OF_RANGE), _) if asked.query.start < table.clock => family.count("4 before 5"),
        (Some(BEFORE_CLOCK), Some(BACKWARD)) => family.count("5 before 7"),
        _ => {}
    }
}
