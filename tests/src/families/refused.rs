//! Questions that are refused, next to ones that just are not.

use super::plain::small_ordered;
use super::Case;
use crate::question::{Kind, Question, NUMBERS, RANGES};
use crate::random::Random;
use crate::refusal::{BACKWARD, BEFORE_CLOCK, EXPIRES_FIRST, OUT_OF_RANGE};

const ALL_ALIKE: &str = "6: expiry, minute and start are the same";
const BEFORE_7: &str = "6 before 7: expiry and minute are the same";
const AFTER_5: &str = "5 before 6: expiry and minute are the same";
const AFTER_4: &str = "4 before 6: expiry and minute are the same";
const A_MINUTE_TO_LIVE: &str = "not 6: the expiry is the minute after";

pub const NAMES: &[&str] = &[ALL_ALIKE, BEFORE_7, AFTER_5, AFTER_4, A_MINUTE_TO_LIVE];

const MINUTE: usize = 5;
const EXPIRY: usize = 6;
const START: usize = 7;
const END: usize = 8;
const FIRST_EDGES: usize = 9;

fn outside(random: &mut Random, (least, greatest): (i32, i32)) -> i32 {
    let below = random.one_of(&[least - 1, i32::MIN]);
    let above = random.one_of(&[greatest.saturating_add(1), i32::MAX]);
    if greatest < i32::MAX && random.coin() {
        above
    } else {
        below
    }
}

fn any_argument(random: &mut Random, kind: Kind) -> usize {
    random.between(0, kind.numbers() as i32 - 1) as usize
}

/// One number at an end of its range, one past it, or as far past it as the type goes.
pub fn range_ends(random: &mut Random, kind: Kind) -> Case {
    let mut numbers = small_ordered(random, kind).question.numbers();
    let argument = any_argument(random, kind);
    let range = RANGES[argument];
    let known = if random.coin() {
        numbers[argument] = outside(random, range);
        Some(OUT_OF_RANGE)
    } else {
        numbers[argument] = random.one_of(&[range.0, range.1]);
        None
    };
    Case { question: Question::from_numbers(kind, &numbers), known, named: None }
}

/// Any set of the four reasons at once. The least of them is the answer.
pub fn several(random: &mut Random, kind: Kind) -> Case {
    let mut numbers = small_ordered(random, kind).question.numbers();
    // Room below the report's minute for a start and an end that are too early.
    for minute in &mut numbers[MINUTE..=END] {
        *minute += 2;
    }
    // Out of range comes last, so that no other reason puts its argument right again.
    let mut reasons = vec![BEFORE_CLOCK, EXPIRES_FIRST, BACKWARD, OUT_OF_RANGE];
    reasons.retain(|_| random.coin());
    for &reason in &reasons {
        give_reason(random, kind, reason, &mut numbers);
    }
    let known = reasons.iter().copied().min();
    Case { question: Question::from_numbers(kind, &numbers), known, named: name(&reasons, &numbers) }
}

/// Where the expiry is the report's minute, or the next one.
fn name(reasons: &[i32], numbers: &[i32; NUMBERS]) -> Option<&'static str> {
    let has = |reason: i32| reasons.contains(&reason);
    match numbers[EXPIRY].wrapping_sub(numbers[MINUTE]) {
        1 if !has(OUT_OF_RANGE) && !has(BEFORE_CLOCK) => Some(A_MINUTE_TO_LIVE),
        0 if has(OUT_OF_RANGE) => Some(AFTER_4),
        0 if has(BEFORE_CLOCK) => Some(AFTER_5),
        0 if has(BACKWARD) => Some(BEFORE_7),
        0 if numbers[START] == numbers[MINUTE] => Some(ALL_ALIKE),
        _ => None,
    }
}

fn give_reason(random: &mut Random, kind: Kind, reason: i32, numbers: &mut [i32; NUMBERS]) {
    match reason {
        BEFORE_CLOCK => numbers[START] = numbers[MINUTE] - 1,
        EXPIRES_FIRST => numbers[EXPIRY] = numbers[MINUTE] - random.between(0, 1),
        BACKWARD => turn_backward(random, kind, numbers),
        _ => {
            let argument = any_argument(random, kind);
            numbers[argument] = outside(random, RANGES[argument]);
        }
    }
}

/// Each of the ways in which a query can be backward.
fn turn_backward(random: &mut Random, kind: Kind, numbers: &mut [i32; NUMBERS]) {
    let pairs = (kind.numbers() - FIRST_EDGES) as i32 / 2;
    match (random.between(-1, pairs), kind) {
        (-1, Kind::Moving) => numbers[END] = numbers[START],
        (-1, Kind::Window) | (0, _) => numbers[END] = numbers[START] - 1,
        (pair, _) => {
            let low = FIRST_EDGES + 2 * (pair as usize - 1);
            numbers[low] = numbers[low + 1] + 1;
        }
    }
}
