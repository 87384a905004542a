//! Puts the questions of each family to a library and to the exact computation.

use crate::families::{Case, Family};
use crate::question::{Kind, Question};
use crate::random::Random;
use crate::refusal::answer;
use crate::tally::Tally;
use std::collections::BTreeMap;
use std::fmt::Debug;

/// How many questions each family asks.
pub const QUESTIONS: u32 = 100_000;

/// How many of them must have each answer and each name that the family is meant to bring up.
const FEWEST: u32 = 50;

/// How many wrong answers of a family are printed in full.
const SHOWN: u32 = 5;

pub struct Comparison {
    pub kind: Kind,
    pub seed: u64,
    pub ask: fn(&Question) -> i32,
}

impl Comparison {
    pub fn run(&self, families: &[Family]) -> Tally {
        let mut tally = Tally::default();
        for (place, family) in families.iter().enumerate() {
            let mut random = Random::seeded(self.seed + place as u64);
            tally.check(self.family_agrees(family, &mut random));
        }
        tally
    }

    fn family_agrees(&self, family: &Family, random: &mut Random) -> bool {
        let mut counts = BTreeMap::new();
        let mut names = BTreeMap::new();
        let mut wrong = 0;
        for _ in 0..QUESTIONS {
            let case = (family.make)(random);
            let computed = answer(self.kind, &case.question);
            let answered = (self.ask)(&case.question);
            *counts.entry(computed).or_insert(0) += 1;
            if let Some(name) = case.named {
                *names.entry(name).or_insert(0) += 1;
            }
            if answered != computed || case.known.is_some_and(|known| known != computed) {
                wrong += 1;
                if wrong <= SHOWN {
                    self.show(family, &case, answered, computed);
                }
            }
        }
        println!("{:?} {}: {}; {wrong} wrong", self.kind, family.name, in_words(&counts));
        for (name, count) in &names {
            println!("  {name}: {count}");
        }
        let answers = all_came_up(family, "the answer", family.meant, &counts);
        let all_named = all_came_up(family, "the name", family.names, &names);
        wrong == 0 && answers && all_named
    }

    fn show(&self, family: &Family, case: &Case, answered: i32, computed: i32) {
        let numbers = &case.question.numbers()[..self.kind.numbers()];
        let built = case.known.map_or(String::new(), |known| format!(", built for {known}"));
        println!(
            "WRONG {:?} {}: answered {answered}, computed {computed}{built}: {numbers:?}",
            self.kind, family.name
        );
    }
}

/// A family that hardly brings up what it is meant to bring up tests less than it claims.
fn all_came_up<T: Ord + Debug>(family: &Family, what: &str, meant: &[T], counts: &BTreeMap<T, u32>) -> bool {
    let rare = |one: &&T| counts.get(*one).is_none_or(|&count| count < FEWEST);
    let missing: Vec<_> = meant.iter().filter(rare).collect();
    if !missing.is_empty() {
        println!("FAILED {}: under {FEWEST} questions with {what} {missing:?}", family.name);
    }
    missing.is_empty()
}

fn in_words(counts: &BTreeMap<i32, u32>) -> String {
    let word = |answer: i32| match answer {
        0 => "no".to_string(),
        1 => "yes".to_string(),
        number => format!("refused by {number}"),
    };
    let parts: Vec<_> = counts.iter().map(|(&a, count)| format!("{} {count}", word(a))).collect();
    parts.join(", ")
}
