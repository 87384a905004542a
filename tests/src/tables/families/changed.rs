//! Reports and drops, one after the other: after every call its number, the table's soundness, its cells
//! and every word that must not change; and queries in between.

mod described;

use super::Family;
use crate::question::{Kind, Query, Rectangle, Report, MINUTE, POSITION};
use crate::random::Random;
use crate::refusal::{BEFORE_CLOCK, EXPIRES_FIRST, FULL, NOT_SOUND, OUT_OF_RANGE};
use crate::tables::afresh::{Entries, Step};
use crate::tables::builder::{draw, Table};
use crate::tables::changes::{spoiled, spoiled_by, Style};
use crate::tables::damage::DAMAGES;
use crate::tables::judge;
use crate::tables::layout::*;
use crate::tables::library::{Lent, Library};
use crate::tables::model::{Change, Model};
use crate::tables::queries::{accepted, KINDS};
use crate::tables::reading;
use crate::tables::scan::{truth_for, Asked, Truth};
use crate::tables::sheet::live;
use crate::tables::worlds::Cell;
use crate::tally::Tally;
use described::{describe_drop, describe_report, describe_shape, ENDS_OF_LIVES};

const CAPACITIES: [i32; 10] = [1, 2, 3, 7, 8, 9, 16, 40, 255, 256];

/// So many calls in each table; a large one takes longer to fill.
const CALLS: i32 = 150;
const FEW: i32 = 20;
const DAMAGED: u32 = 10;
const TRIES: u32 = 20_000;

pub fn run(library: &Library, tally: &mut Tally) {
    for (place, capacity) in CAPACITIES.into_iter().enumerate() {
        let mut random = Random::seeded(0xb400 + place as u64);
        tally.check(runs_agree(library, capacity, &mut random));
        tally.check(kept_full(library, capacity, &mut random));
    }
    tally.check(succeeded(library));
    tally.check(damaged(library));
}

/// A table in the hands of the library, what the model says of it, and how its calls are drawn.
struct Run<'a> {
    library: &'a Library,
    random: &'a mut Random,
    family: &'a mut Family,
    style: Style,
    words: Vec<i32>,
    model: Model,
}

impl<'a> Run<'a> {
    /// From a fresh table, or from any that the builder draws.
    fn begun(library: &'a Library, random: &'a mut Random, family: &'a mut Family, capacity: i32) -> Run<'a> {
        let style = Style::drawn(random, capacity);
        let (words, model) = if random.coin() {
            family.count("from a fresh table");
            let length = words_for(capacity) + random.place(3);
            let mut words = random.rubbish_words(length);
            (library.fresh)(&mut words, capacity);
            (words, Model::of(capacity, 0, &[]))
        } else {
            family.count("from a table drawn");
            let table = draw(random, capacity);
            let model = Model::of(capacity, table.clock, &table.cells);
            (table.words, model)
        };
        Run { library, random, family, style, words, model }
    }

    /// Makes the call and compares all that it leaves. After a difference the run is no use.
    fn make(&mut self, change: &Change) -> Result<i32, ()> {
        let number = self.model.number(change);
        self.describe(change, number);
        let mut lent = Lent::of(self.random, &self.words);
        let answered = (self.library.change)(lent.words(), change);
        let mut after = lent.words().to_vec();
        let need = words_for(self.model.capacity);
        after[need..].copy_from_slice(&self.words[need..]);
        let what = if answered != number {
            format!("answered {answered}, computed {number}")
        } else if number != 0 && !lent.untouched() {
            format!("refused by {number}, but words are written")
        } else if !lent.is_now(&after) {
            "words past the table's need, or beside it, are written".to_string()
        } else if number != 0 {
            return Ok(number);
        } else {
            self.model.accept(change);
            let left = self.compare(change, &after);
            self.words = after;
            match left {
                Ok(()) => return Ok(number),
                Err(what) => what,
            }
        };
        self.family.wrong(format!("{what}: {change:?}, N {}", self.model.capacity));
        Err(())
    }

    /// What an accepted call leaves.
    fn compare(&mut self, change: &Change, after: &[i32]) -> Result<(), String> {
        let broken = judge::broken(after);
        if !broken.is_empty() {
            return Err(format!("not sound: {broken:?}"));
        }
        if (after[CAPACITY], after[CLOCK]) != (self.model.capacity, self.model.clock) {
            return Err(format!("capacity {}, clock {}", after[CAPACITY], after[CLOCK]));
        }
        let clock = self.model.clock;
        let mut held = reading::cells(after);
        held.sort_unstable_by_key(|cell| cell.id);
        if live(&held, clock) != live(&self.model.cells, clock) {
            return Err("other live cells than computed".to_string());
        }
        if held.len() > self.model.cells.len() {
            return Err("cells are held whose lives are over".to_string());
        }
        let put = match change {
            Change::Report(report) => Some(report.id),
            Change::Drop { .. } => None,
        };
        let before = &self.words;
        let Entries { afresh, left_alone, put_back } =
            Step { before, after, minute: clock, put }.entries()?;
        if afresh > 0 && left_alone > 0 {
            self.family.count("some entries afresh, some left alone");
        }
        if put_back > 0 {
            self.family.count("a node as before that was changed in between");
        }
        describe_shape(before, after, put.is_none(), self.family);
        Ok(())
    }

    /// What the call brings up, before it is made.
    fn describe(&mut self, change: &Change, number: i32) {
        let held = reading::cells(&self.words);
        match change {
            Change::Report(report) => describe_report(&self.model, &held, report, number, self.family),
            Change::Drop { id, minute } => {
                describe_drop(&self.model, &held, *id, *minute, number, self.family)
            }
        }
    }

    /// A query of either kind, by the model's cells and the words' nodes.
    fn query(&mut self) {
        let kind = KINDS[self.random.place(2)];
        let height = self.words[HEIGHT] as usize;
        let (cells, clock) = (self.model.cells.clone(), self.model.clock);
        let table = Table { words: self.words.clone(), cells, clock, height };
        let asked = accepted(self.random, &table, kind);
        self.ask(&asked);
    }

    /// The identifiers that the query must list, if it is not refused.
    fn ask(&mut self, asked: &Asked) -> Vec<i32> {
        let truth = truth_for(&self.words, &self.model.cells, asked);
        self.family.count(match &truth {
            Truth::Refused(number) => format!("query refused by {number}"),
            Truth::Met { ids, .. } if ids.is_empty() => "query without hits".to_string(),
            Truth::Met { .. } => "query with hits".to_string(),
        });
        let places = self.random.one_of(&[256, 256, 3]) as usize;
        let list = self.random.rubbish_words(places);
        let mut list = Lent::of(self.random, &list);
        let mut lent = Lent::of(self.random, &self.words);
        self.family.note(self.library.differs(&mut lent, &mut list, asked, &truth));
        match truth {
            Truth::Refused(_) => Vec::new(),
            Truth::Met { ids, .. } => ids,
        }
    }
}

fn runs_agree(library: &Library, capacity: i32, random: &mut Random) -> bool {
    let mut family = Family::named(format!("reports and drops in tables of {capacity}"));
    let tables = match capacity {
        ..=16 => 80,
        17..=40 => 50,
        _ => 30,
    };
    for _ in 0..tables {
        let mut run = Run::begun(library, random, &mut family, capacity);
        if run.drop_expired().and_then(|()| run.fill_now_and_then()).is_err() {
            continue;
        }
        // At the last minute of all everything is refused.
        let calls = if run.model.clock == MINUTE { FEW } else { CALLS + 2 * capacity };
        for _ in 0..calls {
            let held = reading::cells(&run.words);
            let mut change = run.style.change(run.random, &run.model, &held);
            if run.random.between(0, 9) == 0 {
                change = spoiled(run.random, run.model.clock, &change);
            }
            if run.make(&change).is_err() {
                break;
            }
            if run.random.between(0, 3) == 0 {
                run.query();
            }
        }
    }
    let mut meant = vec!["report 0", "report 4", "report 5", "report 6", "report 9"];
    meant.extend(["drop 0", "drop 4", "drop 5", "drop 8", "query with hits", "query without hits"]);
    meant.extend(["from a fresh table", "from a table drawn", "4 before 5", "5 before 6"]);
    meant.extend(["8: not held", "8: held, but expired at the clock"]);
    meant.push("8: live at the clock, not at the minute");
    let ends = family.brought_up(ENDS_OF_LIVES, 40);
    if capacity >= 9 {
        meant.extend(["leaf parted", "leaves joined", "root grew", "root gave way"]);
        meant.push("some entries afresh, some left alone");
    }
    if capacity >= 40 {
        meant.extend(["cell borrowed", "three levels or more"]);
    }
    family.holds(&meant, 10) && ends
}

/// A table is filled, stays full, and its cells all expire at once.
fn kept_full(library: &Library, capacity: i32, random: &mut Random) -> bool {
    let mut family = Family::named(format!("tables of {capacity} kept full"));
    let tables = if capacity > 40 { 8 } else { 40 };
    for _ in 0..tables {
        let mut run = Run::begun(library, random, &mut family, capacity);
        let clock = run.model.clock;
        // At the last minute of all nothing lives.
        if clock == MINUTE {
            continue;
        }
        let expiry = (clock + run.random.between(1, 31)).min(MINUTE);
        let minute = run.random.between(clock, expiry - 1);
        if run.fill(minute, expiry).and_then(|()| run.stay_full(minute, expiry)).is_err() {
            continue;
        }
        // In the minute before the expiry they are live still; in that of the expiry none is, and there is
        // room for N others.
        let last = run.refused_when_full(expiry - 1, MINUTE);
        if last.is_ok() && expiry < MINUTE && run.fill(expiry, MINUTE).is_ok() {
            let _ = run.refused_when_full(expiry, MINUTE);
            run.query();
        }
    }
    let meant = [
        "replaced in a full table",
        "put in the room of an expired cell",
        "full at the clock, not at the minute",
        "report 9",
        "6 before 9",
        "6 before 9, expiry and minute the same",
    ];
    family.holds(&meant, 5)
}

const SUCCESSIONS: usize = 120;

const ALL_REPLACED: &str = "N cells replaced by N others in the minute of their expiry";
const AT_ITS_PLACE: &str = "a successor listed where the other is at its expiry";
const OLD_BEFORE: &str = "the old cells listed in the minute before";
const NONE_AT_EXPIRY: &str = "no old cell listed at the expiry";

/// N cells with one expiry, and in that very minute N others: with the same identifiers and with new ones,
/// often where the old ones then are. No query shows both.
fn succeeded(library: &Library) -> bool {
    let mut random = Random::seeded(0xb200);
    let mut family = Family::named("cells and their successors");
    for place in 0..SUCCESSIONS {
        let capacity = if place % 20 == 0 { LARGEST } else { random.one_of(&CAPACITIES[..8]) };
        let mut run = Run::begun(library, &mut random, &mut family, capacity);
        let clock = run.model.clock;
        // The successors must live past the expiry of those before them.
        if clock < MINUTE - 1 {
            let expiry = run.random.between(clock + 1, (clock + 30).min(MINUTE - 1));
            let minute = run.random.between(clock, expiry - 1);
            let _ = run.fill(minute, expiry).and_then(|()| run.succeed(expiry));
        }
    }
    let mut meant = vec![ALL_REPLACED, AT_ITS_PLACE, OLD_BEFORE, NONE_AT_EXPIRY, "report 9"];
    meant.extend(["put in the minute of its own expiry", "put in the minute of another's expiry"]);
    meant.extend(["8: in the minute of the expiry", "full at the clock, not at the minute"]);
    family.holds(&meant, 40)
}

impl Run<'_> {
    /// Cells that the table holds but that count as absent.
    fn drop_expired(&mut self) -> Result<(), ()> {
        let minute = self.model.clock;
        let mut expired = reading::cells(&self.words);
        expired.retain(|cell| cell.expiry <= minute);
        for cell in expired.iter().take(5) {
            self.make(&Change::Drop { id: cell.id, minute })?;
            self.make(&Change::Drop { id: cell.id, minute: (minute + 1).min(MINUTE) })?;
        }
        Ok(())
    }

    /// One table in ten is full from the start.
    fn fill_now_and_then(&mut self) -> Result<(), ()> {
        let clock = self.model.clock;
        if clock == MINUTE || self.random.between(0, 9) > 0 {
            return Ok(());
        }
        let expiry = self.random.between(clock + 1, MINUTE);
        self.fill(clock, expiry)
    }

    fn report(&mut self, id: i32, minute: i32, expiry: i32) -> Result<i32, ()> {
        let mut report = self.style.report(self.random, id, minute);
        report.expiry = expiry;
        self.make(&Change::Report(report))
    }

    /// New cells until no more go in. Those that were live go on living, but not past the expiry.
    fn fill(&mut self, minute: i32, expiry: i32) -> Result<(), ()> {
        for cell in self.model.live_at(minute) {
            self.report(cell.id, minute, expiry)?;
        }
        while self.model.clock < minute || (self.model.cells.len() as i32) < self.model.capacity {
            let id = self.unknown(&[]);
            self.report(id, minute, expiry)?;
        }
        Ok(())
    }

    /// An identifier that no live cell has, nor any of these.
    fn unknown(&mut self, others: &[Cell]) -> i32 {
        loop {
            let id = self.random.between(1, 1_000);
            if !self.model.cells.iter().chain(others).any(|cell| cell.id == id) {
                return id;
            }
        }
    }

    fn refused_when_full(&mut self, minute: i32, expiry: i32) -> Result<(), ()> {
        let id = self.unknown(&[]);
        let number = self.report(id, minute, expiry)?;
        if number != FULL {
            self.family.wrong(format!("a full table answers {number}"));
        }
        self.report(id, minute, minute)?;
        if minute > 0 {
            self.report(id, minute, minute - 1)?;
        }
        Ok(())
    }

    /// Cells are replaced, and dropped for others.
    fn stay_full(&mut self, minute: i32, expiry: i32) -> Result<(), ()> {
        for _ in 0..self.model.capacity.min(40) {
            self.refused_when_full(minute, expiry)?;
            let id = self.model.cells[self.random.place(self.model.cells.len())].id;
            self.report(id, minute, expiry)?;
            let id = self.model.cells[self.random.place(self.model.cells.len())].id;
            self.make(&Change::Drop { id, minute })?;
            self.make(&Change::Drop { id, minute })?;
            let id = self.unknown(&[]);
            self.report(id, minute, expiry)?;
            self.query();
        }
        Ok(())
    }

    /// In a full table whose cells all expire in this minute.
    fn succeed(&mut self, expiry: i32) -> Result<(), ()> {
        let old = self.model.cells.clone();
        self.refused_when_full(expiry - 1, MINUTE)?;
        let everywhere = Rectangle::of((-POSITION, POSITION), (-POSITION, POSITION));
        if !self.listed(expiry - 1, everywhere).is_empty() {
            self.family.count(OLD_BEFORE);
        }
        if self.listed(expiry, everywhere).is_empty() {
            self.family.count(NONE_AT_EXPIRY);
        }
        let id = old[self.random.place(old.len())].id;
        self.make(&Change::Drop { id, minute: expiry })?;
        for cell in &old {
            self.succeed_one(cell, &old)?;
        }
        self.family.count(ALL_REPLACED);
        self.refused_when_full(expiry, MINUTE)
    }

    fn succeed_one(&mut self, cell: &Cell, old: &[Cell]) -> Result<(), ()> {
        let minute = cell.expiry;
        let id = if self.random.coin() { cell.id } else { self.unknown(old) };
        let mut report = self.style.report(self.random, id, minute);
        report.expiry = self.random.between(minute + 1, MINUTE);
        let (x, y) = (cell.x_at(minute), cell.y_at(minute));
        let in_its_place = x.abs() <= POSITION && y.abs() <= POSITION;
        if in_its_place {
            report = Report { x, y, ..report };
        }
        let number = self.make(&Change::Report(report))?;
        if number != 0 {
            self.family.wrong(format!("a successor is refused by {number}"));
        }
        if in_its_place && self.listed(minute, Rectangle::of((x, x), (y, y))).contains(&id) {
            self.family.count(AT_ITS_PLACE);
        }
        Ok(())
    }

    /// What is in the rectangle at that minute.
    fn listed(&mut self, minute: i32, rectangle: Rectangle) -> Vec<i32> {
        self.ask(&Asked { kind: Kind::Window, query: Query::window(minute, minute, rectangle) })
    }
}

/// 1 whatever the arguments are, and not a word is written.
fn damaged(library: &Library) -> bool {
    let mut random = Random::seeded(0xb100);
    let mut family = Family::named("reports and drops in tables that are not sound");
    for damage in DAMAGES {
        let tables: Vec<_> =
            (0..TRIES).filter_map(|_| (damage.make)(&mut random)).take(DAMAGED as usize).collect();
        for words in tables {
            let clock = words.get(CLOCK).copied().unwrap_or(0).clamp(0, MINUTE);
            let style = Style::drawn(&mut random, LARGEST);
            let id = random.between(1, 20);
            let report = Change::Report(style.report(&mut random, id, clock));
            let drop = Change::Drop { id, minute: clock };
            for right in [report, drop] {
                let reason = random.one_of(&[BEFORE_CLOCK, EXPIRES_FIRST, OUT_OF_RANGE]);
                let wrong = spoiled_by(&mut random, clock, &right, &[reason]);
                for change in [right, wrong] {
                    let mut lent = Lent::of(&mut random, &words);
                    let number = (library.change)(lent.words(), &change);
                    family.count("refused by 1");
                    if number != NOT_SOUND || !lent.untouched() {
                        family.wrong(format!("{}: answered {number}, or wrote: {change:?}", damage.name));
                    }
                }
            }
        }
    }
    family.holds(&["refused by 1"], 1_000)
}
