//! What a query must answer: every cell tried one by one, and the opened nodes counted by their
//! definition.

use super::judge;
use super::layout::CLOCK;
use super::library::Answer;
use super::reading::{self, Reached};
use super::worlds::Cell;
use crate::meeting::{Body, Instant};
use crate::question::{Kind, Query, Report};
use crate::refusal::{query_refusal, NOT_SOUND, SHORT_LIST};

#[derive(Clone, Copy, Debug)]
pub struct Asked {
    pub kind: Kind,
    pub query: Query,
}

/// The answer, but for the length of the list.
pub enum Truth {
    Refused(i32),
    Met { ids: Vec<i32>, opened: i32 },
}

pub fn body(cell: &Cell) -> Body {
    let Cell { id, x, vx, y, vy, expiry } = *cell;
    Body::cell(&Report { id, x, y, vx, vy, minute: 0, expiry })
}

/// For words that may be anything.
pub fn truth(words: &[i32], asked: &Asked) -> Truth {
    if judge::sound(words) {
        truth_if_sound(words, asked)
    } else {
        Truth::Refused(NOT_SOUND)
    }
}

/// For words that are known to be a sound table.
pub fn truth_if_sound(words: &[i32], asked: &Asked) -> Truth {
    truth_for(words, &reading::cells(words), asked)
}

/// For words that are known to be a sound table with these live cells.
pub fn truth_for(words: &[i32], cells: &[Cell], asked: &Asked) -> Truth {
    if let Some(number) = query_refusal(asked.kind, words[CLOCK], &asked.query) {
        return Truth::Refused(number);
    }
    let met = cells.iter().filter(|cell| body(cell).meets(&asked.query));
    let mut ids: Vec<i32> = met.map(|cell| cell.id).collect();
    ids.sort_unstable();
    Truth::Met { ids, opened: opened(words, reading::root(words), &asked.query) }
}

/// How many nodes are opened from an opened node on, itself counted. An entry opens its child where its
/// rectangle touches the query's at an instant of the query that is before its greatest expiry.
fn opened(words: &[i32], from: Reached, query: &Query) -> i32 {
    let mut all = 1;
    for inner in reading::children(words, from) {
        let (rows, expiry) = reading::bounds(words, inner.at);
        if Body::rows(rows, expiry).meets(query) {
            all += opened(words, inner.child, query);
        }
    }
    all
}

/// Whether an entry of an opened node touches the rectangle at the query's start and is left shut all
/// the same, since that minute is its greatest expiry.
pub fn shut_at_the_start(words: &[i32], from: Reached, query: &Query) -> bool {
    reading::children(words, from).iter().any(|inner| {
        let (rows, expiry) = reading::bounds(words, inner.at);
        let entry = Body::rows(rows, expiry);
        if entry.meets(query) {
            shut_at_the_start(words, inner.child, query)
        } else {
            expiry == query.start && entry.touches_at(query, Instant::whole(expiry))
        }
    })
}

impl Truth {
    /// The answer, and the list afterwards.
    pub fn with_list(&self, list: &[i32]) -> (Answer, Vec<i32>) {
        let mut after = list.to_vec();
        let answer = match self {
            Truth::Refused(number) => Answer { number: *number, hits: 0, opened: 0 },
            Truth::Met { ids, .. } if ids.len() > list.len() => {
                Answer { number: SHORT_LIST, hits: ids.len() as i32, opened: 0 }
            }
            Truth::Met { ids, opened } => {
                after[..ids.len()].copy_from_slice(ids);
                Answer { number: 0, hits: ids.len() as i32, opened: *opened }
            }
        };
        (answer, after)
    }
}
