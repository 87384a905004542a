//! Words that anyone wrote: at random, and sound tables with one word changed. Refused with 1
//! exactly when the judge finds them unsound.

use super::Family;
use crate::random::Random;
use crate::refusal::NOT_SOUND;
use crate::tables::builder::{draw, Table};
use crate::tables::judge;
use crate::tables::layout::*;
use crate::tables::library::{Lent, Library};
use crate::tables::queries::{accepted, spoiled, KINDS};
use crate::tables::reading;
use crate::tables::scan::{truth, Truth};
use crate::tally::Tally;

const RANDOM: u32 = 10_000;
const CHANGED_TABLES: u32 = 600;
const CHANGES: u32 = 100;
const LONGEST: usize = 13_000;

pub fn run(library: &Library, tally: &mut Tally) {
    tally.check(random_words(library));
    tally.check(one_word_changed(library));
}

fn ask(library: &Library, table: &Table, words: &[i32], random: &mut Random, family: &mut Family) {
    let kind = KINDS[random.place(2)];
    let mut asked = accepted(random, table, kind);
    if random.between(0, 4) == 0 {
        asked = spoiled(random, table.clock, &asked);
    }
    let truth = truth(words, &asked);
    family.count(match truth {
        Truth::Refused(NOT_SOUND) => "refused by 1",
        Truth::Refused(_) => "sound, refused by another number",
        Truth::Met { .. } => "sound, answered",
    });
    let places = random.place(300);
    let list = random.rubbish_words(places);
    let mut list = Lent::of(random, &list);
    let mut lent = Lent::of(random, words);
    family.note(library.differs(&mut lent, &mut list, &asked, &truth));
}

fn random_words(library: &Library) -> bool {
    let mut random = Random::seeded(0x6000);
    let mut family = Family::named("random words");
    let some = draw(&mut random, 40);
    for _ in 0..RANDOM {
        let mut words = drawn_words(&mut random);
        if random.between(0, 3) > 0 {
            plausible_header(&mut random, &mut words);
        }
        ask(library, &some, &words, &mut random, &mut family);
    }
    family.holds(&["refused by 1", "sound, answered"], 50)
}

fn drawn_words(random: &mut Random) -> Vec<i32> {
    let length = match random.between(0, 4) {
        0 => random.place(20),
        1 => words_for(random.between(1, 4)) + random.place(3) - 1,
        2 => random.place(600),
        _ => random.place(LONGEST + 1),
    };
    match random.between(0, 2) {
        0 => random.rubbish_words(length),
        1 => (0..length).map(|_| random.between(0, 4)).collect(),
        _ => vec![random.one_of(&[0, 0, 1, -1, i32::MIN]); length],
    }
}

/// With a header that a sound table could have, so that what comes after it matters.
fn plausible_header(random: &mut Random, words: &mut [i32]) {
    if words.len() < HEADER {
        return;
    }
    let most = (words.len().saturating_sub(HEADER) / NODE * 2) as i32 - 1;
    words[CAPACITY] = random.between(1, most.clamp(1, LARGEST));
    words[CLOCK] = random.between(0, 1_440);
    words[ROOT] = random.place(nodes_for(words[CAPACITY])) as i32;
    words[HEIGHT] = random.one_of(&[0, 0, 1, 2, i32::MAX]);
}

fn one_word_changed(library: &Library) -> bool {
    let mut random = Random::seeded(0x6100);
    let mut family = Family::named("one word changed");
    for _ in 0..CHANGED_TABLES {
        let capacity = random.one_of(&[1, 2, 3, 7, 8, 9, 16, 16, 40, 40, 40, 255, 256]);
        let table = draw(&mut random, capacity);
        let mut words = table.words.clone();
        for _ in 0..CHANGES {
            let at = chosen_word(&mut random, &table.words);
            words[at] = other_value(&mut random, &table.words, at);
            ask(library, &table, &words, &mut random, &mut family);
            if !judge::sound(&words) {
                family.count(where_it_is(at));
            }
            words[at] = table.words[at];
        }
    }
    let meant = [
        "refused by 1",
        "sound, answered",
        "sound, refused by another number",
        "unsound by the header",
        "unsound by a count",
        "unsound by an entry",
    ];
    family.holds(&meant, 100)
}

fn where_it_is(at: usize) -> &'static str {
    match at {
        _ if at < HEADER => "unsound by the header",
        _ if (at - HEADER) % NODE < OWN => "unsound by a count",
        _ => "unsound by an entry",
    }
}

/// Mostly a word that means something.
fn chosen_word(random: &mut Random, words: &[i32]) -> usize {
    let reached = reading::nodes_from(words, reading::root(words));
    let node = reached[random.place(reached.len())].node;
    match random.between(0, 9) {
        0 => random.place(words.len()),
        1 => random.place(4),
        2 => node_at(random.place(nodes_for(words[CAPACITY]))),
        3 => node_at(node),
        _ => entry_at(node, random.place(reading::count(words, node).max(1))) + random.place(ENTRY),
    }
}

fn other_value(random: &mut Random, words: &[i32], at: usize) -> i32 {
    match random.between(0, 5) {
        0 => random.rubbish(),
        1 => random.between(0, 9),
        2 => words[random.place(words.len())],
        3 => words[at].wrapping_neg(),
        _ => words[at].wrapping_add(random.sign()),
    }
}
