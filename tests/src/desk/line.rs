//! Lines as the desk takes them, read and written.

use crate::question::{Kind, Query, Report, QUERY_AT, QUERY_NUMBERS};

/// The bytes of the longest line, without its line feed.
pub const LONGEST: usize = 128;

/// The digits of the longest number.
const DIGITS: usize = 9;

/// The greatest number that a line can name.
pub const GREATEST: i32 = 999_999_999;

#[derive(Clone, Copy, Debug, PartialEq, Eq)]
pub enum Line {
    Cell(Report),
    Drop { id: i32, minute: i32 },
    Query { kind: Kind, query: Query },
}

/// The form that a line without its line feed is; none where it is bad.
pub fn read(line: &[u8]) -> Option<Line> {
    if line.len() > LONGEST {
        return None;
    }
    let mut fields = line.split(|&byte| byte == b' ');
    let word = fields.next()?;
    let numbers: Vec<i32> = fields.map(number).collect::<Option<_>>()?;
    match (word, numbers.as_slice()) {
        (b"cell", &[id, x, y, vx, vy, minute, expiry]) => {
            Some(Line::Cell(Report { id, x, y, vx, vy, minute, expiry }))
        }
        (b"drop", &[id, minute]) => Some(Line::Drop { id, minute }),
        (b"when", six) if six.len() == fields_of(Kind::Window) => Some(query(Kind::Window, six)),
        (b"move", ten) if ten.len() == fields_of(Kind::Moving) => Some(query(Kind::Moving, ten)),
        _ => None,
    }
}

fn number(field: &[u8]) -> Option<i32> {
    let digits = field.strip_prefix(b"-").unwrap_or(field);
    if digits.is_empty() || digits.len() > DIGITS || !digits.iter().all(u8::is_ascii_digit) {
        return None;
    }
    std::str::from_utf8(field).ok()?.parse().ok()
}

fn fields_of(kind: Kind) -> usize {
    kind.numbers() - QUERY_AT
}

fn query(kind: Kind, given: &[i32]) -> Line {
    let mut numbers = [0; QUERY_NUMBERS];
    numbers[..given.len()].copy_from_slice(given);
    Line::Query { kind, query: Query::from_numbers(kind, &numbers) }
}

impl Line {
    fn word(&self) -> &'static str {
        match self {
            Line::Cell(_) => "cell",
            Line::Drop { .. } => "drop",
            Line::Query { kind: Kind::Window, .. } => "when",
            Line::Query { kind: Kind::Moving, .. } => "move",
        }
    }

    fn numbers(&self) -> Vec<i32> {
        match self {
            Line::Cell(r) => vec![r.id, r.x, r.y, r.vx, r.vy, r.minute, r.expiry],
            Line::Drop { id, minute } => vec![*id, *minute],
            Line::Query { kind, query } => query.numbers()[..fields_of(*kind)].to_vec(),
        }
    }

    pub fn fields(&self) -> Vec<String> {
        let numbers = self.numbers();
        std::iter::once(self.word().to_string()).chain(numbers.iter().map(i32::to_string)).collect()
    }

    pub fn bytes(&self) -> Vec<u8> {
        self.fields().join(" ").into_bytes()
    }
}
