//! Tables with one clause broken: refused with 1, whatever else is wrong, and nothing written.

use super::Family;
use crate::question::{Query, Rectangle, MINUTE, POSITION};
use crate::random::Random;
use crate::refusal::{BACKWARD, BEFORE_CLOCK, NOT_SOUND, OUT_OF_RANGE};
use crate::tables::damage::{Damage, DAMAGES};
use crate::tables::judge::{self, Clause};
use crate::tables::layout::CLOCK;
use crate::tables::library::{Lent, Library};
use crate::tables::queries::{spoiled_by, KINDS};
use crate::tables::scan::{Asked, Truth};
use crate::tally::Tally;

/// How many tables each damage is done to, and how many are tried for it.
const TABLES: u32 = 50;
const TRIES: u32 = 20_000;

pub fn run(library: &Library, tally: &mut Tally) {
    for (place, damage) in DAMAGES.iter().enumerate() {
        let mut random = Random::seeded(0x5000 + place as u64);
        tally.check(refused(library, damage, &mut random));
    }
    tally.check(every_clause_is_broken());
}

/// By some damage, and alone but for the range of edges: an edge out of it can't be right either.
fn every_clause_is_broken() -> bool {
    let mut family = Family::named("clauses broken by a damage of their own");
    for clause in judge::CLAUSES {
        let alone = |damage: &Damage| damage.breaks == clause && damage.alone;
        match DAMAGES.iter().any(alone) {
            true => family.count("alone"),
            false if clause == Clause::EdgeRange => family.count("with another"),
            false => family.wrong(format!("{clause:?} is broken by none")),
        }
    }
    family.holds(&["alone", "with another"], 1)
}

fn refused(library: &Library, damage: &Damage, random: &mut Random) -> bool {
    let mut family = Family::named(format!("damage: {}", damage.name));
    let mut done = 0;
    for _ in 0..TRIES {
        if done == TABLES {
            break;
        }
        let Some(words) = (damage.make)(random) else { continue };
        done += 1;
        let broken = judge::broken(&words);
        let as_meant = broken.contains(&damage.breaks) && (!damage.alone || broken.len() == 1);
        if !as_meant {
            family.wrong(format!("meant to break {:?}, judged to break {broken:?}", damage.breaks));
        }
        ask(library, &words, random, &mut family);
    }
    family.holds(&["right arguments", "wrong arguments"], TABLES)
}

fn ask(library: &Library, words: &[i32], random: &mut Random, family: &mut Family) {
    let mut table = Lent::of(random, words);
    let clock = words.get(CLOCK).copied().unwrap_or(0).clamp(0, MINUTE - 1);
    let whole = (-POSITION, POSITION);
    for kind in KINDS {
        let query = Query::window(clock, MINUTE, Rectangle::of(whole, whole));
        let right = Asked { kind, query };
        let list = random.rubbish_words(300);
        let mut list = Lent::of(random, &list);
        let refusal = Truth::Refused(NOT_SOUND);
        family.count("right arguments");
        family.note(library.differs(&mut table, &mut list, &right, &refusal));
        for reason in [OUT_OF_RANGE, BEFORE_CLOCK, BACKWARD] {
            let wrong = spoiled_by(random, clock, &right, &[reason]);
            family.count("wrong arguments");
            family.note(library.differs(&mut table, &mut list, &wrong, &refusal));
        }
        let mut no_list = Lent::of(random, &[]);
        family.count("no list");
        family.note(library.differs(&mut table, &mut no_list, &right, &refusal));
    }
}
