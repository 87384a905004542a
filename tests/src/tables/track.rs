//! Which cell a line of well-known text gives, from the paper's words: the text by its grammar, and then
//! each condition by itself. It writes nothing back, and its numbers are wide.

use super::layout::KEPT;
use super::worlds::Cell;
use crate::question::{MINUTE, VELOCITY};

/// Why a line gives no cell.
#[derive(Clone, Copy, Debug, PartialEq, Eq)]
pub enum Why {
    /// The text has not the form of a line.
    Form,
    /// A number that 64 bits do not hold: no minute, and farther away than any track goes.
    TooLarge,
    Identifier,
    MinuteRange,
    /// The first minute is not before the second.
    MinuteOrder,
    /// A position that is not in whole units.
    PartOfUnit,
    /// A velocity that is not whole.
    PartOfVelocity,
    VelocityRange,
    KeptRange,
}

impl Why {
    pub fn name(self) -> &'static str {
        match self {
            Why::Form => "no line",
            Why::TooLarge => "a number past 64 bits",
            Why::Identifier => "identifier",
            Why::MinuteRange => "minute out of range",
            Why::MinuteOrder => "minutes not rising",
            Why::PartOfUnit => "part of a unit",
            Why::PartOfVelocity => "part of a velocity",
            Why::VelocityRange => "velocity out of range",
            Why::KeptRange => "kept position out of range",
        }
    }
}

/// Metres in a unit.
const UNIT: i128 = 10;

/// The numbers of a line: x, y and minute, twice.
const NUMBERS: usize = 6;

/// The cell, or every reason why there is none.
pub fn cell(id: i32, line: &[u8]) -> Result<Cell, Vec<Why>> {
    let mut whys = Vec::new();
    if id < 1 {
        whys.push(Why::Identifier);
    }
    let Some(numbers) = numbers(line) else {
        whys.push(Why::Form);
        return Err(whys);
    };
    let [Some(x1), Some(y1), Some(m1), Some(x2), Some(y2), Some(m2)] = numbers else {
        whys.push(Why::TooLarge);
        return Err(whys);
    };
    if [m1, m2].iter().any(|minute| !(0..=i128::from(MINUTE)).contains(minute)) {
        whys.push(Why::MinuteRange);
    }
    if m1 >= m2 {
        whys.push(Why::MinuteOrder);
    }
    let x = axis(x1, x2, m1, m2, &mut whys);
    let y = axis(y1, y2, m1, m2, &mut whys);
    match (x, y) {
        (Some((x, vx)), Some((y, vy))) if whys.is_empty() => {
            Ok(Cell { id, x: x as i32, vx: vx as i32, y: y as i32, vy: vy as i32, expiry: m2 as i32 })
        }
        _ => Err(whys),
    }
}

/// The kept position and the velocity of one axis, as far as there are any.
fn axis(first: i128, second: i128, m1: i128, m2: i128, whys: &mut Vec<Why>) -> Option<(i128, i128)> {
    if first % UNIT != 0 || second % UNIT != 0 {
        whys.push(Why::PartOfUnit);
        return None;
    }
    if m1 >= m2 {
        return None;
    }
    let (from, to, minutes) = (first / UNIT, second / UNIT, m2 - m1);
    if (to - from) % minutes != 0 {
        whys.push(Why::PartOfVelocity);
        return None;
    }
    let velocity = (to - from) / minutes;
    let kept = from - velocity * m1;
    if velocity.abs() > i128::from(VELOCITY) {
        whys.push(Why::VelocityRange);
    }
    if kept.abs() > i128::from(KEPT) {
        whys.push(Why::KeptRange);
    }
    Some((kept, velocity))
}

/// The numbers of a LINESTRING line, or nothing where the text is none. One that is too large is none.
fn numbers(line: &[u8]) -> Option<[Option<i128>; NUMBERS]> {
    let mut rest = Rest { bytes: line };
    let mut numbers = [None; NUMBERS];
    let before: [&[u8]; NUMBERS] = [b"LINESTRING M (", b" ", b" ", b", ", b" ", b" "];
    for (number, words) in numbers.iter_mut().zip(before) {
        rest.take(words)?;
        *number = rest.number()?;
    }
    rest.take(b")\n")?;
    rest.bytes.is_empty().then_some(numbers)
}

/// What is still to be read.
struct Rest<'a> {
    bytes: &'a [u8],
}

impl Rest<'_> {
    fn take(&mut self, words: &[u8]) -> Option<()> {
        self.bytes = self.bytes.strip_prefix(words)?;
        Some(())
    }

    /// A minus or none, then digits without a leading zero; zero is `0` alone.
    fn number(&mut self) -> Option<Option<i128>> {
        let unsigned = self.bytes.strip_prefix(b"-").unwrap_or(self.bytes);
        let digits = unsigned.iter().take_while(|byte| byte.is_ascii_digit()).count();
        let length = self.bytes.len() - unsigned.len() + digits;
        let (spelt, rest) = self.bytes.split_at(length);
        self.bytes = rest;
        match spelt {
            b"0" | [b'1'..=b'9', ..] | [b'-', b'1'..=b'9', ..] => {
                let spelt = std::str::from_utf8(spelt).expect("a minus and digits");
                Some(spelt.parse::<i64>().ok().map(i128::from))
            }
            _ => None,
        }
    }
}
