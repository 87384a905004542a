//! Which entries a change may leave alone. Every entry on a changed path is worked out afresh at the
//! call's minute; entries elsewhere keep their words.

use super::layout::*;
use super::reading::{self, Inner, Reached};
use std::collections::BTreeMap;

pub struct Step<'a> {
    pub before: &'a [i32],
    pub after: &'a [i32],
    pub minute: i32,
    /// The identifier of the cell that was put in.
    pub put: Option<i32>,
}

/// How many entries were worked out afresh, and how many were left alone.
pub struct Entries {
    pub afresh: u32,
    pub left_alone: u32,
    /// Of those worked out afresh, how many have beneath them what they had before.
    pub put_back: u32,
}

impl Step<'_> {
    /// Both tables are sound.
    pub fn entries(&self) -> Result<Entries, String> {
        let old: BTreeMap<usize, Inner> =
            reading::inners(self.before).into_iter().map(|inner| (inner.child.node, inner)).collect();
        let mut entries = Entries { afresh: 0, left_alone: 0, put_back: 0 };
        for new in reading::inners(self.after) {
            let was = old.get(&new.child.node).filter(|was| was.child.height == new.child.height);
            let elsewhere = was.is_some() && self.same_below(new.child) && !self.is_put_below(new.child);
            let same_words = was
                .is_some_and(|was| self.before[was.at..was.at + ENTRY] == self.after[new.at..new.at + ENTRY]);
            let stamp = self.after[new.at + inner::STAMP];
            if elsewhere && same_words {
                entries.left_alone += 1;
            } else if stamp != self.minute {
                return Err(format!("stamp {stamp} above node {} on a changed path", new.child.node));
            } else {
                entries.afresh += 1;
                entries.put_back += u32::from(elsewhere);
            }
        }
        // A node can take over the rest of another and then lose it as well, which takes two cells.
        if entries.put_back > 0 && self.leaving() < 2 {
            return Err("an entry with nothing changed beneath it has other words".to_string());
        }
        Ok(entries)
    }

    /// How many cells are no longer held.
    fn leaving(&self) -> usize {
        let left = reading::cells(self.after);
        reading::cells(self.before).iter().filter(|cell| !left.contains(cell)).count()
    }

    /// Whether the node and all beneath it have the same entries as before, in the same places.
    fn same_below(&self, node: Reached) -> bool {
        meaning(self.before, node) == meaning(self.after, node)
            && reading::children(self.after, node).iter().all(|inner| self.same_below(inner.child))
    }

    fn is_put_below(&self, node: Reached) -> bool {
        let Some(id) = self.put else { return false };
        if node.height > 0 {
            return reading::children(self.after, node).iter().any(|inner| self.is_put_below(inner.child));
        }
        let count = reading::count(self.after, node.node);
        (0..count).any(|place| self.after[entry_at(node.node, place) + cell::ID] == id)
    }
}

/// The words of a node that mean something, entry by entry.
fn meaning(words: &[i32], node: Reached) -> Vec<&[i32]> {
    let read = if node.height == 0 { cell::READ } else { ENTRY };
    let entry = |place: usize| {
        let at = entry_at(node.node, place);
        &words[at..at + read]
    };
    (0..reading::count(words, node.node).min(FULL)).map(entry).collect()
}
