//! Leafing through tables: each live cell once, by rising identifier, from any identifier on.

use super::Family;
use crate::random::Random;
use crate::refusal::NOT_SOUND;
use crate::tables::builder::{draw, Table};
use crate::tables::damage::DAMAGES;
use crate::tables::library::{Lent, Library};
use crate::tables::sheet::{live, record, RECORD_NUMBERS};
use crate::tables::worlds::Cell;
use crate::tally::Tally;

const TABLES: u32 = 400;
const DAMAGED: u32 = 10;
const TRIES: u32 = 20_000;

/// Nothing more is left.
const NONE: [i32; RECORD_NUMBERS] = [0; RECORD_NUMBERS];

pub fn run(library: &Library, tally: &mut Tally) {
    tally.check(sound(library));
    tally.check(damaged(library));
}

fn sound(library: &Library) -> bool {
    let mut random = Random::seeded(0xa000);
    let mut family = Family::named("leafing through sound tables");
    for _ in 0..TABLES {
        let capacity = random.one_of(&[1, 2, 3, 8, 9, 16, 40, 40, 256]);
        let table = draw(&mut random, capacity);
        let live = live(&table.cells, table.clock);
        let mut words = Lent::of(&mut random, &table.words);
        if (library.open)(words.words()) != 0 {
            family.wrong("a sound table was not opened");
        }
        leaf(library, &mut words, &live, &mut random, &mut family);
        for last in drawn_lasts(&mut random, &table) {
            describe(&table, &live, last, &mut family);
            step(library, &mut words, &live, last, &mut random, &mut family);
        }
        if !words.untouched() {
            family.wrong("table changed");
        }
    }
    family.holds(&["cell", "none", "all cells of a table", EXPIRES_NOW, EXPIRES_NEXT, EXPIRES_LAST], 200)
}

const EXPIRES_NOW: &str = "a cell passed over in the minute of its expiry";
const EXPIRES_NEXT: &str = "a cell given in the minute before its expiry";
const EXPIRES_LAST: &str = "none, as the last cell expires in that minute";

/// Whether the step comes to a life that ends at the clock, or a minute after it.
fn describe(table: &Table, live: &[Cell], last: i32, family: &mut Family) {
    let next = live.iter().find(|cell| cell.id > last);
    let before_it = |cell: &&Cell| last < cell.id && next.is_none_or(|next| cell.id < next.id);
    if table.cells.iter().filter(before_it).any(|cell| cell.expiry == table.clock) {
        family.count(if next.is_some() { EXPIRES_NOW } else { EXPIRES_LAST });
    }
    if next.is_some_and(|next| next.expiry == table.clock + 1) {
        family.count(EXPIRES_NEXT);
    }
}

/// From the opening to the end, by the identifiers that are given.
fn leaf(library: &Library, words: &mut Lent<i32>, live: &[Cell], random: &mut Random, family: &mut Family) {
    let mut last = 0;
    for _ in 0..=live.len() {
        last = step(library, words, live, last, random, family);
    }
    if last == live.last().map_or(0, |cell| cell.id) {
        family.count("all cells of a table");
    } else {
        family.wrong(format!("the leafing ended at {last}"));
    }
}

/// The identifier to go on from.
fn step(
    library: &Library,
    words: &mut Lent<i32>,
    live: &[Cell],
    last: i32,
    random: &mut Random,
    family: &mut Family,
) -> i32 {
    let next = live.iter().find(|cell| cell.id > last);
    family.count(if next.is_some() { "cell" } else { "none" });
    let expected = next.map_or(NONE, record);
    let answer = asked(library, words, last, random);
    if answer != (i32::from(next.is_some()), expected, true) {
        family.wrong(format!("after {last}: {answer:?}, computed {expected:?}"));
    }
    next.map_or(last, |cell| cell.id)
}

/// The answer, the record, and whether nothing beside it was written.
fn asked(
    library: &Library,
    words: &mut Lent<i32>,
    last: i32,
    random: &mut Random,
) -> (i32, [i32; RECORD_NUMBERS], bool) {
    let numbers = random.rubbish_words(RECORD_NUMBERS);
    let mut numbers = Lent::of(random, &numbers);
    let room = numbers.words().try_into().expect("as many as a record has");
    let answer = (library.next)(words.words(), last, room);
    let given: [i32; RECORD_NUMBERS] = numbers.words().try_into().expect("as many as a record has");
    (answer, given, numbers.is_now(&given))
}

/// At the ends of the type, at 0, and at and beside identifiers of live and expired cells.
fn drawn_lasts(random: &mut Random, table: &Table) -> Vec<i32> {
    let mut lasts = vec![i32::MIN, -1, 0, 1, i32::MAX - 1, i32::MAX];
    if !table.cells.is_empty() {
        for _ in 0..8 {
            let id = table.cells[random.place(table.cells.len())].id;
            lasts.push(id.saturating_add(random.between(-1, 1)));
        }
    }
    lasts
}

/// The opening gives 1, and a step gives none.
fn damaged(library: &Library) -> bool {
    let mut random = Random::seeded(0xa100);
    let mut family = Family::named("leafing through tables that are not sound");
    for damage in DAMAGES {
        let tables: Vec<_> =
            (0..TRIES).filter_map(|_| (damage.make)(&mut random)).take(DAMAGED as usize).collect();
        for words in tables {
            let mut words = Lent::of(&mut random, &words);
            let opening = (library.open)(words.words());
            let last = random.one_of(&[i32::MIN, -1, 0, 5, i32::MAX]);
            let answer = asked(library, &mut words, last, &mut random);
            family.count("not opened");
            if opening != NOT_SOUND || answer != (0, NONE, true) || !words.untouched() {
                family.wrong(format!("{}: {opening}, {answer:?}", damage.name));
            }
        }
    }
    family.holds(&["not opened"], 100)
}
