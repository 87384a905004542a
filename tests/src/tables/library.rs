//! The calls of the library, and memory lent to them so that a stray read or write is seen.

use super::model::Change;
use super::scan::{Asked, Truth};
use super::sheet::RECORD_NUMBERS;
use crate::pages::{Beside, Side};
use crate::question::{Kind, QUERY_NUMBERS};
use crate::random::Random;
use std::ops::Range;

#[derive(Clone, Copy, Debug, PartialEq, Eq)]
pub struct Answer {
    pub number: i32,
    pub hits: i32,
    pub opened: i32,
}

/// What writing a sheet or a text answers.
#[derive(Clone, Copy, Debug, PartialEq, Eq)]
pub struct Written {
    pub number: i32,
    pub total: i32,
}

/// The table of a call that only reads it is lent for writing here too, so that the compiler takes
/// nothing for granted: whether it is left alone is compared.
pub struct Library {
    pub fresh: fn(&mut [i32], i32) -> i32,
    pub change: fn(&mut [i32], &Change) -> i32,
    pub query: fn(Kind, &mut [i32], &mut [i32], &[i32; QUERY_NUMBERS]) -> Answer,
    pub write: fn(&mut [i32], &mut [u8]) -> Written,
    pub read: fn(&mut [i32], i32, &[u8]) -> i32,
    pub open: fn(&mut [i32]) -> i32,
    /// From an identifier on, with room for a record's numbers.
    pub next: fn(&mut [i32], i32, &mut [i32; RECORD_NUMBERS]) -> i32,
    pub tracks: fn(&mut [i32], &mut [u8]) -> Written,
    /// With an identifier and a line, which is lent for writing as tables are.
    pub read_track: fn(i32, &mut [u8], &mut [i32; RECORD_NUMBERS]) -> i32,
}

/// Words or bytes that are lent, with pages without access next to them on one side, and on the other
/// some more that are not lent and are compared.
pub struct Lent<T> {
    before: Vec<T>,
    now: Beside<T>,
    lent: Range<usize>,
    side: Side,
}

/// How many there are that are not lent.
const OTHERS: usize = 32;

impl Lent<i32> {
    pub fn of(random: &mut Random, words: &[i32]) -> Lent<i32> {
        let others = random.rubbish_words(OTHERS);
        Lent::beside(Side::by(others[0]), words, &others)
    }
}

impl Lent<u8> {
    pub fn of_bytes(random: &mut Random, bytes: &[u8]) -> Lent<u8> {
        let others = random.rubbish_bytes(OTHERS);
        Lent::beside(Side::by(others[0].into()), bytes, &others)
    }
}

impl<T: Copy + PartialEq> Lent<T> {
    pub fn beside(side: Side, lent: &[T], others: &[T]) -> Lent<T> {
        let (before, start) = match side {
            Side::Behind => ([others, lent].concat(), others.len()),
            Side::Before => ([lent, others].concat(), 0),
        };
        let now = Beside::holding(&before, side);
        Lent { before, now, lent: start..start + lent.len(), side }
    }

    /// Where the pages without access are.
    pub fn side(&self) -> Side {
        self.side
    }

    pub fn words(&mut self) -> &mut [T] {
        &mut self.now[self.lent.clone()]
    }

    /// As they were lent.
    pub fn lent(&self) -> &[T] {
        &self.before[self.lent.clone()]
    }

    /// Whether there is now what was lent, in the same place and with the same beside it, but for the
    /// words that are given.
    pub fn is_now(&self, words: &[T]) -> bool {
        let Range { start, end } = self.lent;
        self.now[..start] == self.before[..start]
            && self.now[start..end] == *words
            && self.now[end..] == self.before[end..]
    }

    pub fn untouched(&self) -> bool {
        *self.now == *self.before
    }
}

impl Library {
    /// Asks, and tells what is wrong with the answer, the list or the table.
    pub fn differs(
        &self,
        table: &mut Lent<i32>,
        list: &mut Lent<i32>,
        asked: &Asked,
        truth: &Truth,
    ) -> Option<String> {
        let (expected, after) = truth.with_list(list.lent());
        let answer = (self.query)(asked.kind, table.words(), list.words(), &asked.query.numbers());
        let what = if answer != expected {
            format!("answered {answer:?}, computed {expected:?}")
        } else if !list.is_now(&after) {
            format!("list of {} not as computed", list.lent().len())
        } else if !table.untouched() {
            "table changed".to_string()
        } else {
            return None;
        };
        let numbers = asked.query.numbers();
        Some(format!("{what}: {:?} {:?}, {} places", asked.kind, numbers, list.lent().len()))
    }
}
