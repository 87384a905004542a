//! Families of tables and calls. Each prints one line with its counts, and fails on any difference
//! and also if a kind of answer that it is meant to bring up hardly comes up.

mod answered;
mod changed;
mod charted;
mod damaged;
mod fresh;
mod leafed;
mod read;
mod rubbish;
mod sound;
mod tracked;
mod written;

use super::library::Library;
use crate::tally::Tally;
use std::collections::BTreeMap;

pub fn run(library: &Library) -> Tally {
    let mut tally = Tally::default();
    sound::run(&mut tally);
    damaged::run(library, &mut tally);
    rubbish::run(library, &mut tally);
    answered::run(library, &mut tally);
    fresh::run(library, &mut tally);
    written::run(library, &mut tally);
    read::run(library, &mut tally);
    leafed::run(library, &mut tally);
    charted::run(library, &mut tally);
    tracked::run(library, &mut tally);
    changed::run(library, &mut tally);
    tally
}

/// How many differences of a family are printed in full.
const SHOWN: u32 = 5;

struct Family {
    name: String,
    counts: BTreeMap<String, u32>,
    wrong: u32,
}

impl Family {
    fn named(name: impl Into<String>) -> Family {
        Family { name: name.into(), counts: BTreeMap::new(), wrong: 0 }
    }

    fn count(&mut self, kind: impl Into<String>) {
        *self.counts.entry(kind.into()).or_insert(0) += 1;
    }

    fn wrong(&mut self, what: impl AsRef<str>) {
        self.wrong += 1;
        if self.wrong <= SHOWN {
            println!("WRONG {}: {}", self.name, what.as_ref());
        }
    }

    fn note(&mut self, difference: Option<String>) {
        if let Some(difference) = difference {
            self.wrong(difference);
        }
    }

    /// Prints the line; whether nothing was wrong and all that was meant came up so often.
    fn holds(&self, meant: &[&str], fewest: u32) -> bool {
        let counts: Vec<String> = self.counts.iter().map(|(kind, count)| format!("{kind} {count}")).collect();
        println!("{}: {}; {} wrong", self.name, counts.join(", "), self.wrong);
        let came_up = self.brought_up(meant, fewest);
        self.wrong == 0 && came_up
    }

    /// Whether all of it came up so often.
    fn brought_up(&self, meant: &[&str], fewest: u32) -> bool {
        let rare = |kind: &&&str| self.counts.get(**kind).is_none_or(|&count| count < fewest);
        let missing: Vec<_> = meant.iter().filter(rare).collect();
        if !missing.is_empty() {
            println!("FAILED {}: under {fewest} of {missing:?}", self.name);
        }
        missing.is_empty()
    }
}
