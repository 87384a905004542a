//! Leafing through the live cells of a table.

use crate::asked::Cell;
use crate::calls;
use crate::refusal::{accepted, another_library, Refusal};
use std::fmt;
use std::iter::FusedIterator;

/// The live cells of a table by rising identifier: see [`Table::cells`](crate::Table::cells).
///
/// It holds on to the table, so nothing can change it meanwhile.
#[derive(Clone)]
pub struct Cells<'t> {
    words: &'t [i32],
    last: i32,
}

impl<'t> Cells<'t> {
    /// A step that gives none says nothing of words that are no table, so they are opened first: then none
    /// means that no more are left.
    pub(crate) fn opened(words: &'t [i32], last: i32) -> Result<Cells<'t>, Refusal> {
        accepted(calls::open(words)).map(|()| Cells { words, last })
    }
}

impl Iterator for Cells<'_> {
    type Item = Cell;

    fn next(&mut self) -> Option<Cell> {
        match calls::next(self.words, self.last) {
            (0, _) => None,
            (1, record) => {
                let cell = Cell::of_record(record);
                self.last = cell.id;
                Some(cell)
            }
            (other, _) => another_library(other),
        }
    }
}

/// After none the last identifier stays, and the words too: the next step gives none again.
impl FusedIterator for Cells<'_> {}

impl fmt::Debug for Cells<'_> {
    fn fmt(&self, f: &mut fmt::Formatter<'_>) -> fmt::Result {
        f.debug_struct("Cells").field("last", &self.last).finish_non_exhaustive()
    }
}
