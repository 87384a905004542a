//! Lines drawn: of cells, and of six numbers that are right or just not.

use crate::question::{MINUTE, VELOCITY};
use crate::random::Random;
use crate::tables::layout::KEPT;
use crate::tables::worlds::{Cell, WORLDS};

/// A minute, and a cell that expires after it: often in the minute after, so that every difference in whole
/// units is a whole velocity, and often still, so that other minutes give a whole velocity too.
pub fn drawn_cell(random: &mut Random) -> (i32, Cell) {
    loop {
        let world = WORLDS[random.place(WORLDS.len())];
        let clock = world.clock(random);
        let cell = world.cells(random, 1, clock)[0];
        if cell.expiry > clock {
            return match random.between(0, 3) {
                0 => (cell.expiry - 1, cell),
                1 => (clock, Cell { vx: 0, vy: 0, ..cell }),
                _ => (clock, cell),
            };
        }
    }
}

/// Six numbers as a line, whatever they are.
pub fn spelt(numbers: &[String; 6]) -> Vec<u8> {
    let [x1, y1, m1, x2, y2, m2] = numbers;
    format!("LINESTRING M ({x1} {y1} {m1}, {x2} {y2} {m2})\n").into_bytes()
}

/// The numbers of a line near the limits, with one thing made wrong, several or none.
pub struct Limits {
    pub id: i32,
    /// In the line's order.
    pub numbers: [i64; 6],
    /// The cell, where nothing was made wrong.
    pub known: Option<Cell>,
}

/// What can be made wrong.
#[derive(Clone, Copy, PartialEq, Eq)]
enum Spoiled {
    Identifier,
    EqualMinutes,
    Backward,
    MinuteRange,
    PartOfUnit,
    PartOfVelocity,
    VelocityRange,
    KeptRange,
}

const SPOILED: [Spoiled; 8] = [
    Spoiled::Identifier,
    Spoiled::EqualMinutes,
    Spoiled::Backward,
    Spoiled::MinuteRange,
    Spoiled::PartOfUnit,
    Spoiled::PartOfVelocity,
    Spoiled::VelocityRange,
    Spoiled::KeptRange,
];

impl Limits {
    pub fn drawn(random: &mut Random) -> Limits {
        let mut spoiled = Vec::new();
        for _ in 0..random.one_of(&[0, 0, 1, 1, 1, 1, 1, 2]) {
            spoiled.push(SPOILED[random.place(SPOILED.len())]);
        }
        let id = match spoiled.contains(&Spoiled::Identifier) {
            true => random.one_of(&[0, -1, -7, i32::MIN, i32::MIN + 1]),
            false => random.one_of(&[1, 2, 7, 1 << 16, i32::MAX - 1, i32::MAX]),
        };
        let (m1, m2) = minutes(random, &spoiled);
        let wrong = random.place(2);
        let axes = [0, 1].map(|axis| Axis::drawn(random, if axis == wrong { &spoiled } else { &[] }));
        let known = spoiled.is_empty().then(|| {
            let [Axis { kept: x, velocity: vx }, Axis { kept: y, velocity: vy }] = axes;
            Cell { id, x, vx, y, vy, expiry: m2 }
        });
        let [x, y] = axes;
        let mut numbers = [x.metres(m1), y.metres(m1), m1.into(), x.metres(m2), y.metres(m2), m2.into()];
        let place = wrong + random.one_of(&[0, 3]) as usize;
        if spoiled.contains(&Spoiled::PartOfUnit) {
            numbers[place] += i64::from(random.sign() * random.between(1, 9));
        }
        if spoiled.contains(&Spoiled::PartOfVelocity) {
            numbers[place] += i64::from(random.sign() * random.one_of(&[10, 10, 10, 20, 50]));
        }
        Limits { id, numbers, known }
    }

    pub fn line(&self) -> Vec<u8> {
        spelt(&self.numbers.map(|number| number.to_string()))
    }
}

fn minutes(random: &mut Random, spoiled: &[Spoiled]) -> (i32, i32) {
    let (m1, m2) = loop {
        let (m1, m2) = match random.between(0, 5) {
            0 => (0, MINUTE),
            1 => (0, random.between(1, MINUTE)),
            2 => (random.between(0, MINUTE - 1), MINUTE),
            3 => {
                let minute = random.between(0, MINUTE - 1);
                (minute, minute + 1)
            }
            _ => random.ordered(0, MINUTE),
        };
        if m1 < m2 {
            break (m1, m2);
        }
    };
    let outside = random.one_of(&[1, 1, 1, 2, 60, 1_440]);
    match spoiled {
        _ if spoiled.contains(&Spoiled::EqualMinutes) && random.coin() => (m1, m1),
        _ if spoiled.contains(&Spoiled::EqualMinutes) => (m2, m2),
        _ if spoiled.contains(&Spoiled::Backward) => (m2, m1),
        _ if spoiled.contains(&Spoiled::MinuteRange) && random.coin() => (-outside, m2),
        _ if spoiled.contains(&Spoiled::MinuteRange) => (m1, MINUTE + outside),
        _ => (m1, m2),
    }
}

#[derive(Clone, Copy)]
struct Axis {
    kept: i32,
    velocity: i32,
}

impl Axis {
    fn drawn(random: &mut Random, spoiled: &[Spoiled]) -> Axis {
        let past = random.one_of(&[1, 1, 1, 2, 1_000]);
        let velocity = match spoiled.contains(&Spoiled::VelocityRange) {
            true => random.sign() * (VELOCITY + past),
            false => near(random, VELOCITY),
        };
        let kept = match spoiled.contains(&Spoiled::KeptRange) {
            true => random.sign() * (KEPT + past),
            false => near(random, KEPT),
        };
        Axis { kept, velocity }
    }

    fn metres(&self, minute: i32) -> i64 {
        10 * (i64::from(self.kept) + i64::from(self.velocity) * i64::from(minute))
    }
}

/// Within so much of 0: at the ends, next to them, at 0 or anywhere.
fn near(random: &mut Random, most: i32) -> i32 {
    match random.between(0, 5) {
        0 | 1 => random.sign() * most,
        2 => random.sign() * (most - 1),
        3 => random.between(-1, 1),
        _ => random.between(-most, most),
    }
}
