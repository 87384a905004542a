//! Sheets read into any words: sheets of tables, and the same with something changed.

use super::Family;
use crate::question::MINUTE;
use crate::random::Random;
use crate::refusal::{BAD_CAPACITY, BAD_RECORD, SHORT_TABLE};
use crate::tables::builder::{draw, Table};
use crate::tables::judge;
use crate::tables::layout::*;
use crate::tables::library::{Lent, Library, Written};
use crate::tables::reading;
use crate::tables::sheet::{live, said, sheet, Said};
use crate::tally::Tally;

const SHEETS: u32 = 3_000;
const CHANGED: u32 = 30_000;
const ENDS: u32 = 1_500;

pub fn run(library: &Library, tally: &mut Tally) {
    tally.check(sheets(library));
    tally.check(changed(library));
    tally.check(ends_of_lives(library));
}

/// The sheet of a table of its own, and the capacity of that table.
fn drawn_sheet(random: &mut Random) -> (Vec<u8>, i32) {
    let capacity = random.one_of(&[1, 2, 3, 5, 8, 9, 16, 40, 255, 256]);
    let table = draw(random, capacity);
    (sheet(table.clock, &live(&table.cells, table.clock)), capacity)
}

/// Often the capacity that was, or too small a one by chance.
fn drawn_capacity(random: &mut Random, was: i32) -> i32 {
    match random.between(0, 9) {
        0 => random.one_of(&[0, -1, LARGEST + 1, i32::MIN, i32::MAX]),
        1..=3 => random.between(1, was),
        4 => LARGEST,
        _ => was,
    }
}

fn drawn_words(random: &mut Random, capacity: i32) -> Vec<i32> {
    let need = words_for(capacity.clamp(0, LARGEST));
    let length = match random.between(0, 9) {
        0 => need - 1,
        1 => random.place(need),
        2 => need + random.place(200),
        _ => need,
    };
    random.rubbish_words(length)
}

fn sheets(library: &Library) -> bool {
    let mut random = Random::seeded(0xb000);
    let mut family = Family::named("sheets read");
    for _ in 0..SHEETS {
        let (bytes, was) = drawn_sheet(&mut random);
        let capacity = drawn_capacity(&mut random, was);
        let words = drawn_words(&mut random, capacity);
        read(library, &words, capacity, &bytes, &mut random, &mut family);
    }
    let meant =
        ["read", "no cell", "as many cells as it is for", "refused by 2", "refused by 3", "refused by 9"];
    family.holds(&meant, 50)
}

fn changed(library: &Library) -> bool {
    let mut random = Random::seeded(0xb100);
    let mut family = Family::named("changed sheets read");
    for _ in 0..CHANGED {
        let (mut bytes, was) = drawn_sheet(&mut random);
        change(&mut random, &mut bytes);
        let capacity = drawn_capacity(&mut random, was);
        let words = drawn_words(&mut random, capacity);
        read(library, &words, capacity, &bytes, &mut random, &mut family);
    }
    let meant = ["read", "refused by 2", "refused by 3", "refused by 9", "refused by 11", "refused by 12"];
    family.holds(&meant, 200)
}

const AT_EXPIRY: &str = "12: an expiry is the clock";
const BEFORE_EXPIRY: &str = "read: the soonest expiry is the minute after the clock";
const CELLS_AT_LAST: &str = "12: cells at 1,440";
const NONE_AT_LAST: &str = "read: no cell at 1,440";

/// Sheets that are right but for a life that ends at their clock, and sheets of which a life ends a
/// minute later.
fn ends_of_lives(library: &Library) -> bool {
    let mut random = Random::seeded(0xb300);
    let mut family = Family::named("sheets read at the ends of lives");
    for _ in 0..ENDS {
        let capacity = random.one_of(&[1, 2, 3, 5, 8, 9, 16, 40, 256]);
        let table = draw(&mut random, capacity);
        let (bytes, name) = with_an_end(&mut random, &table);
        family.count(name);
        let refused = said(&bytes, capacity).err();
        if refused != matches!(name, AT_EXPIRY | CELLS_AT_LAST).then_some(BAD_RECORD) {
            family.wrong(format!("{name}: computed {refused:?}"));
        }
        let words = random.rubbish_words(words_for(capacity));
        read(library, &words, capacity, &bytes, &mut random, &mut family);
    }
    family.holds(&[AT_EXPIRY, BEFORE_EXPIRY, CELLS_AT_LAST, NONE_AT_LAST], 40)
}

/// A sheet of the table's live cells with another clock, or with another expiry of one of them.
fn with_an_end(random: &mut Random, table: &Table) -> (Vec<u8>, &'static str) {
    let clock = table.clock;
    let mut cells = live(&table.cells, clock);
    let Some(soonest) = cells.iter().map(|cell| cell.expiry).min() else {
        return (sheet(MINUTE, &[]), NONE_AT_LAST);
    };
    let some = random.place(cells.len());
    match random.between(0, 4) {
        0 => (sheet(MINUTE, &cells), CELLS_AT_LAST),
        1 => (sheet(soonest, &cells), AT_EXPIRY),
        2 => (sheet(soonest - 1, &cells), BEFORE_EXPIRY),
        3 => {
            cells[some].expiry = clock;
            (sheet(clock, &cells), AT_EXPIRY)
        }
        _ => {
            cells[some].expiry = clock + 1;
            (sheet(clock, &cells), BEFORE_EXPIRY)
        }
    }
}

fn change(random: &mut Random, bytes: &mut Vec<u8>) {
    let words = bytes.len() / 4;
    match random.between(0, 5) {
        0 => bytes.truncate(random.place(bytes.len())),
        1 => bytes.extend(vec![0; random.between(1, 30) as usize]),
        2 => {
            let at = random.place(bytes.len());
            bytes[at] ^= 1 << random.place(8);
        }
        3 => {
            let (one, other) = (random.place(words), random.place(words));
            for byte in 0..4 {
                bytes.swap(4 * one + byte, 4 * other + byte);
            }
        }
        _ => {
            let at = 4 * random.place(words);
            let word = i32::from_le_bytes(bytes[at..at + 4].try_into().expect("four bytes"));
            let other = match random.coin() {
                true => word.wrapping_add(random.sign()),
                false => random.rubbish(),
            };
            bytes[at..at + 4].copy_from_slice(&other.to_le_bytes());
        }
    }
}

/// 2 and 3 as for a fresh table, then what is wrong with the sheet.
fn expected(words: &[i32], capacity: i32, bytes: &[u8]) -> Result<Said, i32> {
    if !(1..=LARGEST).contains(&capacity) {
        Err(BAD_CAPACITY)
    } else if words.len() < words_for(capacity) {
        Err(SHORT_TABLE)
    } else {
        said(bytes, capacity)
    }
}

fn read(
    library: &Library,
    words: &[i32],
    capacity: i32,
    bytes: &[u8],
    random: &mut Random,
    family: &mut Family,
) {
    let mut lent = Lent::of(random, words);
    let mut given = Lent::beside(lent.side(), bytes, &[]);
    let number = (library.read)(lent.words(), capacity, given.words());
    if !given.untouched() {
        family.wrong("the sheet's bytes are written");
    }
    let here = format!("{} bytes into {} words for {capacity} cells", bytes.len(), words.len());
    match expected(words, capacity, bytes) {
        Err(refusal) => {
            family.count(format!("refused by {refusal}"));
            if number != refusal {
                family.wrong(format!("answered {number}, computed {refusal}, {here}"));
            } else if !lent.untouched() {
                family.wrong(format!("refused by {number}, but words are written, {here}"));
            }
        }
        Ok(said) => {
            family.count("read");
            if said.cells.is_empty() {
                family.count("no cell");
            }
            if said.cells.len() as i32 == capacity {
                family.count("as many cells as it is for");
            }
            if number != 0 {
                family.wrong(format!("answered {number}, computed 0, {here}"));
                return;
            }
            let mut after = lent.words().to_vec();
            family.note(not_as_said(&after, capacity, &said).map(|what| format!("{what}, {here}")));
            let back = not_written_back(library, &mut lent, bytes);
            family.note(back.map(|what| format!("{what}, {here}")));
            after[words_for(capacity)..].copy_from_slice(&words[words_for(capacity)..]);
            if !lent.is_now(&after) {
                family.wrong(format!("words past its need are written, {here}"));
            }
        }
    }
}

fn not_as_said(words: &[i32], capacity: i32, said: &Said) -> Option<String> {
    let broken = judge::broken(words);
    if !broken.is_empty() {
        return Some(format!("not sound: {broken:?}"));
    }
    let mut cells = reading::cells(words);
    cells.sort();
    let is = words[CAPACITY] == capacity && words[CLOCK] == said.clock && cells == said.cells;
    if !is {
        return Some("not the sheet's capacity, clock and cells".to_string());
    }
    // Every entry is worked out at the sheet's clock.
    let stale = reading::inners(words).iter().any(|entry| words[entry.at + inner::STAMP] != said.clock);
    stale.then(|| "an entry stamped at another minute".to_string())
}

fn not_written_back(library: &Library, table: &mut Lent<i32>, bytes: &[u8]) -> Option<String> {
    let mut buffer = Lent::beside(table.side(), &vec![0; bytes.len()], &[]);
    let written = (library.write)(table.words(), buffer.words());
    let as_it_was = written == Written { number: 0, total: bytes.len() as i32 } && buffer.is_now(bytes);
    (!as_it_was).then(|| format!("written back as {written:?}, or as other bytes"))
}
