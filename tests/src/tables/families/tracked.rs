//! Lines of well-known text read with an identifier: as they are written, changed by a byte, made of numbers
//! near every limit, and of numbers of very many digits.

mod drawn;
mod named;

use super::Family;
use crate::pages::Vast;
use crate::random::Random;
use crate::refusal::NO_TRACK;
use crate::tables::chart::{self, points};
use crate::tables::library::{Lent, Library};
use crate::tables::sheet::{record, RECORD_NUMBERS};
use crate::tables::track::{self, Why};
use crate::tables::worlds::Cell;
use crate::tally::Tally;
use drawn::{drawn_cell, spelt, Limits};

const CHANGED_LINES: u32 = 200;

/// In so many of them every other byte is tried in every place.
const EVERY_BYTE: u32 = 20;

const CHANGED_TWICE: u32 = 200_000;

const NEAR_LIMITS: u32 = 150_000;

/// A line that gives a cell.
const LINE: &str = "LINESTRING M (1000 2000 10, 2500 1100 40)\n";

/// A line of so many bytes is long.
const LONG: usize = 4_000_000;

pub fn run(library: &Library, tally: &mut Tally) {
    named::run(library, tally);
    tally.check(changed(library));
    tally.check(changed_twice(library));
    tally.check(near_limits(library));
    tally.check(many_digits(library));
    tally.check(other_numbers_of_the_same_bits(library));
    tally.check(long_lines(library));
    tally.check(more_than_32_bits_count(library));
}

/// A line lent with an identifier, and the cell that it must give.
pub struct Reading<'a> {
    pub id: i32,
    pub line: &'a [u8],
    pub expected: Option<Cell>,
}

/// Reads, and tells what is wrong with the answer, the numbers, what is beside them or the line.
pub fn differs(library: &Library, reading: &Reading, random: &mut Random) -> Option<String> {
    let (number, expected) = match &reading.expected {
        Some(cell) => (0, record(cell)),
        None => (NO_TRACK, [0; RECORD_NUMBERS]),
    };
    let rubbish = random.rubbish_words(RECORD_NUMBERS);
    let mut numbers = Lent::of(random, &rubbish);
    let mut line = Lent::of_bytes(random, reading.line);
    let room = numbers.words().try_into().expect("as many as a record has");
    let answer = (library.read_track)(reading.id, line.words(), room);
    let what = if answer != number {
        format!("answered {answer}, computed {number}")
    } else if !numbers.is_now(&expected) {
        format!("gave {:?}, computed {expected:?}, or wrote beside them", numbers.words())
    } else if !line.untouched() {
        "wrote to the line".to_string()
    } else {
        return None;
    };
    Some(format!("{what}: {} and {}", reading.id, shown(reading.line)))
}

/// The first bytes of a line, and how many there are.
fn shown(line: &[u8]) -> String {
    let first = &line[..line.len().min(100)];
    format!("{:?} of {} bytes", String::from_utf8_lossy(first), line.len())
}

/// Reads a line that may be anything. Counts it under the reason why it gives no cell, where that is the only one.
fn judge(library: &Library, id: i32, line: &[u8], random: &mut Random, family: &mut Family) {
    let judged = track::cell(id, line);
    match &judged {
        Ok(_) => family.count("cell"),
        Err(whys) => match whys.as_slice() {
            [why] => family.count(why.name()),
            _ => family.count("several reasons"),
        },
    }
    family.note(differs(library, &Reading { id, line, expected: judged.ok() }, random));
}

/// Bytes that mean something in a line, or nearly.
const BYTES: &[u8] = b"0123456789-+.,() \n\r\t\0eMmLZ'\x1a\xa0";

/// A byte put in, exchanged, taken out, or changing places with the next, in every place.
fn changed(library: &Library) -> bool {
    let mut random = Random::seeded(0xf000);
    let mut family = Family::named("lines changed by a byte");
    let every_byte: Vec<u8> = (0..=255).collect();
    for place in 0..CHANGED_LINES {
        let (clock, cell) = drawn_cell(&mut random);
        let line = chart::line(clock, &cell).into_bytes();
        let bytes = if place < EVERY_BYTE { &every_byte } else { BYTES };
        for at in 0..=line.len() {
            for changed in changes(&line, at, bytes) {
                judge(library, cell.id, &changed, &mut random, &mut family);
            }
        }
    }
    let meant = [
        "cell",
        Why::Form.name(),
        Why::MinuteRange.name(),
        Why::MinuteOrder.name(),
        Why::PartOfUnit.name(),
        Why::PartOfVelocity.name(),
        Why::VelocityRange.name(),
    ];
    family.holds(&meant, 500)
}

/// What a second change mends or makes worse.
fn changed_twice(library: &Library) -> bool {
    let mut random = Random::seeded(0xfa00);
    let mut family = Family::named("lines changed by two bytes");
    for _ in 0..CHANGED_TWICE {
        let (clock, cell) = drawn_cell(&mut random);
        let mut line = chart::line(clock, &cell).into_bytes();
        for _ in 0..2 {
            let at = random.place(line.len() + 1);
            let changes = changes(&line, at, &[BYTES[random.place(BYTES.len())], b'0']);
            line = changes[random.place(changes.len())].clone();
        }
        judge(library, cell.id, &line, &mut random, &mut family);
    }
    family.holds(&["cell", "several reasons", Why::Form.name(), Why::PartOfVelocity.name()], 300)
}

fn changes(line: &[u8], at: usize, bytes: &[u8]) -> Vec<Vec<u8>> {
    let (before, after) = line.split_at(at);
    let with = |middle: &[u8], after: &[u8]| [before, middle, after].concat();
    let mut all: Vec<Vec<u8>> = bytes.iter().map(|&byte| with(&[byte], after)).collect();
    if let Some((&here, after)) = after.split_first() {
        let others = bytes.iter().filter(|&&byte| byte != here);
        all.extend(others.map(|&byte| with(&[byte], after)));
        all.push(with(&[], after));
        if let Some((&next, after)) = after.split_first() {
            all.push(with(&[next, here], after));
        }
    }
    all
}

fn near_limits(library: &Library) -> bool {
    let mut random = Random::seeded(0xf100);
    let mut family = Family::named("lines near every limit");
    for _ in 0..NEAR_LIMITS {
        let drawn = Limits::drawn(&mut random);
        if let Some(known) = drawn.known {
            family.count("cell that is known");
            if track::cell(drawn.id, &drawn.line()) != Ok(known) {
                family.wrong(format!("computed another cell than {known:?}"));
            }
        }
        judge(library, drawn.id, &drawn.line(), &mut random, &mut family);
    }
    let meant = [
        "cell",
        "cell that is known",
        "several reasons",
        Why::Identifier.name(),
        Why::MinuteRange.name(),
        Why::MinuteOrder.name(),
        Why::PartOfUnit.name(),
        Why::PartOfVelocity.name(),
        Why::VelocityRange.name(),
        Why::KeptRange.name(),
    ];
    family.holds(&meant, 2_000)
}

/// The numbers of a line that gives a cell, for others to be put in their places.
fn some_numbers(random: &mut Random) -> [i32; 6] {
    let (clock, cell) = drawn_cell(random);
    points(clock, &cell).concat().try_into().expect("two points of three numbers")
}

/// In one place, and in the two of an axis, so that the cell would stand still far away.
const PLACES: [&[usize]; 8] = [&[0], &[1], &[2], &[3], &[4], &[5], &[0, 3], &[1, 4]];

fn many_digits(library: &Library) -> bool {
    let mut random = Random::seeded(0xf200);
    let mut family = Family::named("numbers of many digits");
    let counts = [7, 8, 8, 8, 9, 10, 11, 18, 19, 20, 21, 38, 39, 40, 100, 1_000, 20_000];
    for _ in 0..20 {
        let numbers = some_numbers(&mut random).map(|number| number.to_string());
        for places in PLACES {
            for digits in counts {
                for spelling in digits_spelt(&mut random, digits, &numbers[places[0]]) {
                    let mut exchanged = numbers.clone();
                    places.iter().for_each(|&place| exchanged[place] = spelling.clone());
                    judge(library, 7, &spelt(&exchanged), &mut random, &mut family);
                }
            }
        }
    }
    let meant =
        ["cell", Why::Form.name(), Why::TooLarge.name(), Why::KeptRange.name(), Why::MinuteRange.name()];
    family.holds(&meant, 20)
}

/// A number of so many digits, in tens, with a minus and without; and a number that was, with so many zeros
/// after it, before it, and before it with another digit in front.
fn digits_spelt(random: &mut Random, digits: usize, was: &str) -> Vec<String> {
    let zeros = "0".repeat(digits);
    let first = random.between(1, 9);
    let middle: String = (2..digits).map(|_| random.between(0, 9).to_string()).collect();
    let number = format!("{first}{middle}0");
    let (minus, unsigned) = was.strip_prefix('-').map_or(("", was), |unsigned| ("-", unsigned));
    vec![
        format!("-{number}"),
        number,
        format!("{was}{zeros}"),
        format!("{minus}{zeros}{unsigned}"),
        format!("{minus}{first}{zeros}{unsigned}"),
    ]
}

/// Numbers that are a right one in the last 8, 16, 31, 32, 63 or 64 bits, in tens where that can be.
fn other_numbers_of_the_same_bits(library: &Library) -> bool {
    let mut random = Random::seeded(0xf300);
    let mut family = Family::named("other numbers with the same last bits");
    for _ in 0..100 {
        let numbers = some_numbers(&mut random);
        for places in PLACES {
            for bits in [8, 16, 24, 31, 32, 33, 63, 64, 100] {
                for times in [1, -1, 5, -5] {
                    let mut exchanged = numbers.map(|number| number.to_string());
                    for &place in places {
                        exchanged[place] = (i128::from(numbers[place]) + times * (1 << bits)).to_string();
                    }
                    judge(library, 7, &spelt(&exchanged), &mut random, &mut family);
                }
            }
        }
    }
    let meant = [
        "cell",
        Why::TooLarge.name(),
        Why::MinuteRange.name(),
        Why::PartOfUnit.name(),
        Why::KeptRange.name(),
    ];
    family.holds(&meant, 100)
}

/// In the middle of the words, in each part of a line that there is, and at either end.
fn long_lines(library: &Library) -> bool {
    let mut random = Random::seeded(0xf400);
    let mut family = Family::named("lines of megabytes");
    let line = LINE.as_bytes();
    for filling in [b'0', b'1', b'9', b' ', b'\n', 0] {
        let filling = vec![filling; LONG];
        for at in [0, 5, 14, 15, 18, 23, 26, line.len() - 2, line.len() - 1, line.len()] {
            let long = [&line[..at], &filling, &line[at..]].concat();
            judge(library, 7, &long, &mut random, &mut family);
        }
    }
    judge(library, 7, &line.repeat(LONG / line.len()), &mut random, &mut family);
    family.holds(&[Why::Form.name(), Why::TooLarge.name()], 10)
}

/// A line, and so many zeros after it that the last 32 bits of the length are the line's own length.
fn more_than_32_bits_count(library: &Library) -> bool {
    let mut family = Family::named("a line of more bytes than 32 bits count");
    let line = LINE.as_bytes();
    match Vast::holding(line, (1 << 32) + line.len()) {
        None => family.count("no room"),
        Some(mut vast) => {
            family.count(Why::Form.name());
            let mut numbers = [77; RECORD_NUMBERS];
            let answer = (library.read_track)(7, vast.bytes(), &mut numbers);
            if answer != NO_TRACK || numbers != [0; RECORD_NUMBERS] || vast.few() != line {
                family.wrong(format!("answered {answer}, gave {numbers:?}, or wrote to the line"));
            }
        }
    }
    family.holds(&[], 0)
}
