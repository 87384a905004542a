//! Fresh tables: made exactly when there is such a capacity and room for it, and then empty.

use super::Family;
use crate::random::Random;
use crate::refusal::{BAD_CAPACITY, SHORT_TABLE};
use crate::tables::builder::Table;
use crate::tables::judge;
use crate::tables::layout::*;
use crate::tables::library::{Lent, Library};
use crate::tables::queries::{accepted, KINDS};
use crate::tables::reading;
use crate::tables::scan::Truth;
use crate::tally::Tally;

const CALLS: u32 = 6_000;

pub fn run(library: &Library, tally: &mut Tally) {
    let mut random = Random::seeded(0x8000);
    let mut family = Family::named("fresh");
    for _ in 0..CALLS {
        let capacity = drawn_capacity(&mut random);
        let length = drawn_length(&mut random, capacity);
        let words = random.rubbish_words(length);
        make(library, capacity, &words, &mut random, &mut family);
    }
    let meant =
        ["made", "made in just enough words", "refused by 2", "refused by 3", "refused by 3 for one word"];
    tally.check(family.holds(&meant, 50));
}

fn drawn_capacity(random: &mut Random) -> i32 {
    match random.between(0, 4) {
        0 => random.one_of(&[0, -1, LARGEST + 1, i32::MIN, i32::MAX, 1 << 16, -LARGEST]),
        1 => random.one_of(&[1, 2, 3, 7, 8, 9, 16, 40, 255, LARGEST]),
        2 => random.between(1, 12),
        _ => random.between(-5, 300),
    }
}

fn drawn_length(random: &mut Random, capacity: i32) -> usize {
    let need = words_for(capacity.clamp(0, LARGEST));
    match random.between(0, 6) {
        0 => need - 1,
        1 | 2 => need,
        3 => need + 1,
        4 => need + random.place(300),
        5 => random.place(need),
        _ => random.place(13_000),
    }
}

fn make(library: &Library, capacity: i32, words: &[i32], random: &mut Random, family: &mut Family) {
    let mut lent = Lent::of(random, words);
    let expected = match capacity {
        1..=LARGEST if words.len() >= words_for(capacity) => 0,
        1..=LARGEST => SHORT_TABLE,
        _ => BAD_CAPACITY,
    };
    let number = (library.fresh)(lent.words(), capacity);
    let here = format!("for {capacity} cells in {} words", words.len());
    if number != expected {
        family.wrong(format!("answered {number}, computed {expected}, {here}"));
        return;
    }
    if expected != 0 {
        family.count(format!("refused by {expected}"));
        if expected == SHORT_TABLE && words.len() + 1 == words_for(capacity) {
            family.count("refused by 3 for one word");
        }
        if !lent.untouched() {
            family.wrong(format!("refused by {number}, but words are written, {here}"));
        }
        return;
    }
    family.count("made");
    let need = words_for(capacity);
    if words.len() == need {
        family.count("made in just enough words");
    }
    let mut after = lent.words().to_vec();
    after[need..].copy_from_slice(&words[need..]);
    if !lent.is_now(&after) {
        family.wrong(format!("words past its need are written, {here}"));
    }
    is_empty(library, capacity, &after, random, family);
}

fn is_empty(library: &Library, capacity: i32, words: &[i32], random: &mut Random, family: &mut Family) {
    let broken = judge::broken(words);
    if !broken.is_empty() {
        family.wrong(format!("not sound: {broken:?}, for {capacity} cells"));
        return;
    }
    if words[CAPACITY] != capacity || words[CLOCK] != 0 || !reading::cells(words).is_empty() {
        family.wrong(format!("not fresh, for {capacity} cells"));
        return;
    }
    let table = Table { words: words.to_vec(), cells: Vec::new(), clock: 0, height: 0 };
    let mut lent = Lent::of(random, words);
    for kind in KINDS {
        let asked = accepted(random, &table, kind);
        let places = random.place(3);
        let list = random.rubbish_words(places);
        let mut list = Lent::of(random, &list);
        let nothing = Truth::Met { ids: Vec::new(), opened: 1 };
        family.note(library.differs(&mut lent, &mut list, &asked, &nothing));
    }
}
