//! The desk as a plain list of cells: every cell is tried at every query.

use super::line::{read, Line};
use crate::question::{Kind, Query};
use crate::refusal::{query_refusal, LIST_TOO_SHORT};
use crate::tables::model::{Change, Model};
use crate::tables::scan::body;

/// The cells that the desk's table has room for, and the places of its list.
pub const CAPACITY: i32 = 256;
const PLACES: usize = 256;

#[derive(Clone, Debug, PartialEq, Eq)]
pub enum Reply {
    Bad,
    Ok,
    No(i32),
    Hits(Vec<i32>),
}

impl Reply {
    /// The line that the desk prints, with its line feed.
    pub fn line(&self) -> String {
        match self {
            Reply::Bad => "bad\n".to_string(),
            Reply::Ok => "ok\n".to_string(),
            Reply::No(number) => format!("no {number}\n"),
            Reply::Hits(ids) => {
                let listed: String = ids.iter().map(|id| format!(" {id}")).collect();
                format!("hits {}{listed}\n", ids.len())
            }
        }
    }
}

pub struct Desk {
    pub model: Model,
}

impl Desk {
    pub fn fresh() -> Desk {
        Desk { model: Model::of(CAPACITY, 0, &[]) }
    }

    pub fn clock(&self) -> i32 {
        self.model.clock
    }

    pub fn reply(&mut self, line: &[u8]) -> Reply {
        match read(line) {
            None => Reply::Bad,
            Some(Line::Cell(report)) => self.change(&Change::Report(report)),
            Some(Line::Drop { id, minute }) => self.change(&Change::Drop { id, minute }),
            Some(Line::Query { kind, query }) => self.query(kind, &query),
        }
    }

    fn change(&mut self, change: &Change) -> Reply {
        match self.model.number(change) {
            0 => {
                self.model.accept(change);
                Reply::Ok
            }
            number => Reply::No(number),
        }
    }

    fn query(&self, kind: Kind, query: &Query) -> Reply {
        if let Some(number) = query_refusal(kind, self.clock(), query) {
            return Reply::No(number);
        }
        let met = self.model.cells.iter().filter(|cell| body(cell).meets(query));
        let mut ids: Vec<i32> = met.map(|cell| cell.id).collect();
        ids.sort_unstable();
        if ids.len() > PLACES {
            return Reply::No(LIST_TOO_SHORT);
        }
        Reply::Hits(ids)
    }
}
