//! Whether words are a sound table, clause by clause, slowly and plainly. Shares nothing with the
//! builder but the places of the words.

use super::layout::*;
use crate::question::{MINUTE, VELOCITY};
use std::collections::BTreeSet;

/// Every clause, in the order of `Clause`.
pub const CLAUSES: [Clause; Clause::StampBelowZero as usize + 1] = [
    Clause::Capacity,
    Clause::Words,
    Clause::Clock,
    Clause::Root,
    Clause::Height,
    Clause::Count,
    Clause::Child,
    Clause::ReachedTwice,
    Clause::NotFree,
    Clause::Identifier,
    Clause::Position,
    Clause::Velocity,
    Clause::Expiry,
    Clause::TooMany,
    Clause::IdentifierTwice,
    Clause::EntryVelocity,
    Clause::EntryEdge,
    Clause::EdgeRange,
    Clause::GreatestExpiry,
    Clause::StampAfterClock,
    Clause::StampBeforeBeneath,
    Clause::StampBelowZero,
];

/// What can be wrong with a table.
#[derive(Clone, Copy, Debug, PartialEq, Eq, PartialOrd, Ord)]
pub enum Clause {
    /// N is outside 1 to 256.
    Capacity,
    /// The lent words do not suffice for N.
    Words,
    /// The clock is not a minute.
    Clock,
    /// The root is no node of the table.
    Root,
    /// The height is negative.
    Height,
    /// A node has too few or too many entries.
    Count,
    /// A child is no node of the table.
    Child,
    /// A node is reached from the root more than once.
    ReachedTwice,
    /// A node is neither free nor reached from the root.
    NotFree,
    /// An identifier is below 1.
    Identifier,
    /// A kept position is out of range.
    Position,
    /// A cell's velocity is out of range.
    Velocity,
    /// A cell's expiry is not a minute.
    Expiry,
    /// There are more than N cells.
    TooMany,
    /// An identifier is held twice.
    IdentifierTwice,
    /// An entry's velocity is not the least or greatest beneath.
    EntryVelocity,
    /// An entry's edge at the stamp minute is not the least or greatest beneath.
    EntryEdge,
    /// An entry's kept edge is out of range.
    EdgeRange,
    /// An entry's expiry is not the greatest beneath.
    GreatestExpiry,
    /// A stamp is after the clock.
    StampAfterClock,
    /// A stamp is before one beneath it.
    StampBeforeBeneath,
    /// A stamp is not a minute, being below 0.
    StampBelowZero,
}

pub fn sound(words: &[i32]) -> bool {
    broken(words).is_empty()
}

/// All the clauses that do not hold. Past a wrong count or child the search goes on as far as it
/// makes sense, so as to tell what is broken by itself.
pub fn broken(words: &[i32]) -> BTreeSet<Clause> {
    let mut judge = Judge { words, reached: Vec::new(), ids: Vec::new(), broken: BTreeSet::new() };
    judge.table();
    judge.broken
}

struct Judge<'a> {
    words: &'a [i32],
    /// For each node, how often it was reached.
    reached: Vec<u32>,
    ids: Vec<i32>,
    broken: BTreeSet<Clause>,
}

struct Row {
    low: i128,
    high: i128,
    slow: i128,
    fast: i128,
}

impl Row {
    fn at(&self, minute: i128) -> (i128, i128) {
        (self.low + self.slow * minute, self.high + self.fast * minute)
    }
}

impl Judge<'_> {
    fn word(&self, at: usize) -> i32 {
        self.words.get(at).copied().unwrap_or(0)
    }

    fn must(&mut self, holds: bool, clause: Clause) {
        if !holds {
            self.broken.insert(clause);
        }
    }

    fn table(&mut self) {
        let capacity = self.word(CAPACITY);
        let clock = self.word(CLOCK);
        self.must((1..=256).contains(&capacity), Clause::Capacity);
        self.must((0..=MINUTE).contains(&clock), Clause::Clock);
        if !(0..=1_000).contains(&capacity) {
            return;
        }
        let nodes = capacity as usize / 2 + 1;
        self.must(self.words.len() >= 16 + 96 * nodes, Clause::Words);
        self.reached = vec![0; nodes];
        let root = self.word(ROOT);
        let height = self.word(HEIGHT);
        self.must(height >= 0, Clause::Height);
        self.must(0 <= root && (root as usize) < nodes, Clause::Root);
        if self.broken.contains(&Clause::Height) || self.broken.contains(&Clause::Root) {
            return;
        }
        self.node(root as usize, height, true);
        for node in 0..nodes {
            self.must(self.reached[node] <= 1, Clause::ReachedTwice);
            self.must(self.reached[node] > 0 || self.word(node_at(node)) == 0, Clause::NotFree);
        }
        self.must(self.ids.len() as i32 <= capacity, Clause::TooMany);
        let different: BTreeSet<i32> = self.ids.iter().copied().collect();
        self.must(different.len() == self.ids.len(), Clause::IdentifierTwice);
    }

    fn node(&mut self, node: usize, height: i32, is_root: bool) {
        self.reached[node] += 1;
        if self.reached[node] > 1 {
            return;
        }
        let count = self.word(node_at(node));
        let fewest = match (is_root, height) {
            (true, 0) => 0,
            (true, _) => 2,
            (false, _) => 3,
        };
        self.must(fewest <= count && count <= 8, Clause::Count);
        for entry in self.entries(node) {
            if height == 0 {
                self.cell(entry);
            } else {
                self.entry(entry, height);
            }
        }
    }

    /// Where the node's entries begin; no more than nine, whatever the count.
    fn entries(&self, node: usize) -> Vec<usize> {
        let count = self.word(node_at(node)).clamp(0, 9) as usize;
        (0..count).map(|place| entry_at(node, place)).collect()
    }

    fn cell(&mut self, at: usize) {
        let id = self.word(at);
        let positions = [self.word(at + 1), self.word(at + 3)];
        let velocities = [self.word(at + 2), self.word(at + 4)];
        let expiry = self.word(at + 5);
        self.must(id >= 1, Clause::Identifier);
        self.must(positions.iter().all(|kept| (-KEPT..=KEPT).contains(kept)), Clause::Position);
        self.must(velocities.iter().all(|v| (-VELOCITY..=VELOCITY).contains(v)), Clause::Velocity);
        self.must((0..=MINUTE).contains(&expiry), Clause::Expiry);
        self.ids.push(id);
    }

    fn entry(&mut self, at: usize, height: i32) {
        let stamp = self.word(at + inner::STAMP);
        self.must(stamp >= 0, Clause::StampBelowZero);
        self.must(stamp <= self.word(CLOCK), Clause::StampAfterClock);
        let child = self.word(at + inner::CHILD);
        let is_node = 0 <= child && (child as usize) < self.reached.len();
        self.must(is_node, Clause::Child);
        if !is_node {
            return;
        }
        let child = child as usize;
        let beneath = self.entries(child);
        let leaf = height == 1;
        if !leaf {
            for &entry in &beneath {
                self.must(self.word(entry + inner::STAMP) <= stamp, Clause::StampBeforeBeneath);
            }
        }
        if !beneath.is_empty() {
            for axis in 0..2 {
                self.bounds(at, axis, stamp, &beneath, leaf);
            }
            let expiries = beneath.iter().map(|&entry| self.word(entry + if leaf { 5 } else { 9 }));
            let greatest = expiries.max();
            self.must(greatest == Some(self.word(at + inner::UNTIL)), Clause::GreatestExpiry);
        }
        self.node(child, height - 1, false);
    }

    fn row(&self, at: usize, axis: usize, of_cell: bool) -> Row {
        let word = |at: usize| self.word(at) as i128;
        if of_cell {
            let at = at + 1 + 2 * axis;
            Row { low: word(at), high: word(at), slow: word(at + 1), fast: word(at + 1) }
        } else {
            let at = at + 1 + 4 * axis;
            Row { low: word(at), high: word(at + 1), slow: word(at + 2), fast: word(at + 3) }
        }
    }

    fn bounds(&mut self, at: usize, axis: usize, stamp: i32, beneath: &[usize], leaf: bool) {
        let own = self.row(at, axis, false);
        let rows: Vec<Row> = beneath.iter().map(|&entry| self.row(entry, axis, leaf)).collect();
        let limit = KEPT_EDGE as i128;
        self.must(own.low.abs() <= limit && own.high.abs() <= limit, Clause::EdgeRange);
        let velocities_bound = rows.iter().all(|row| own.slow <= row.slow && row.fast <= own.fast);
        let slow_held = rows.iter().any(|row| row.slow == own.slow);
        let fast_held = rows.iter().any(|row| row.fast == own.fast);
        self.must(velocities_bound && slow_held && fast_held, Clause::EntryVelocity);
        let stamp = stamp as i128;
        let (low, high) = own.at(stamp);
        let edges: Vec<(i128, i128)> = rows.iter().map(|row| row.at(stamp)).collect();
        let edges_bound = edges.iter().all(|edge| low <= edge.0 && edge.1 <= high);
        let low_held = edges.iter().any(|edge| edge.0 == low);
        let high_held = edges.iter().any(|edge| edge.1 == high);
        self.must(edges_bound && low_held && high_held, Clause::EntryEdge);
    }
}
