//! Texts written from sound tables, into buffers of every length up to past the total, each line read
//! back; and refused for words that are not sound.

use super::tracked::{self, Reading};
use super::Family;
use crate::pages::Vast;
use crate::question::{MINUTE, VELOCITY};
use crate::random::Random;
use crate::refusal::{NOT_SOUND, SHORT_BYTES};
use crate::tables::builder::{build, draw, heights, Plan, Table};
use crate::tables::chart::{line, points, text, LONGEST_LINE};
use crate::tables::damage::DAMAGES;
use crate::tables::layout::{KEPT, LARGEST};
use crate::tables::library::{Lent, Library, Written};
use crate::tables::sheet::live;
use crate::tables::worlds::Cell;
use crate::tally::Tally;

const TABLES: u32 = 1_000;
const DAMAGED: u32 = 10;
const TRIES: u32 = 20_000;

/// Texts up to this long are written into buffers of every length.
const SHORT: usize = 250;

/// How far past the total these go.
const PAST: usize = 40;

pub fn run(library: &Library, tally: &mut Tally) {
    tally.check(sound(library));
    tally.check(longest(library));
    tally.check(every_length(library));
    tally.check(more_than_32_bits_count(library));
    tally.check(damaged(library));
}

fn sound(library: &Library) -> bool {
    let mut random = Random::seeded(0xe000);
    let mut family = Family::named("texts of sound tables");
    for _ in 0..TABLES {
        let capacity = random.one_of(&[1, 2, 3, 5, 8, 9, 16, 40, 255, 256]);
        let table = draw(&mut random, capacity);
        let live = live(&table.cells, table.clock);
        count_cells(&table, &live, capacity, &mut family);
        let text = text(table.clock, &live);
        for length in lengths(&mut random, &table, &live, text.len()) {
            write(library, &table, &text, length, &mut random, &mut family);
        }
        read_back(library, &table, &live, &mut random, &mut family);
    }
    let meant = [
        "no live cell",
        "no live cell and no bytes",
        "full",
        "tables with expired cells",
        "written",
        "just enough bytes",
        "one byte too few",
        "room for the first lines only",
        "moving",
        "still",
        "read back",
        EXPIRE_NOW,
        EXPIRE_NEXT,
        AT_LAST,
    ];
    family.holds(&meant, 40)
}

const EXPIRE_NOW: &str = "no line, as the expiry is the clock";
const EXPIRE_NEXT: &str = "a line of one minute";
const AT_LAST: &str = "no line at 1,440";

fn count_cells(table: &Table, live: &[Cell], capacity: i32, family: &mut Family) {
    match live.len() {
        0 => family.count("no live cell"),
        count if count as i32 == capacity => family.count("full"),
        _ => (),
    }
    if live.len() < table.cells.len() {
        family.count("tables with expired cells");
    }
    for cell in live {
        family.count(match cell {
            Cell { vx: 0, vy: 0, .. } => "still",
            _ => "moving",
        });
    }
    for cell in &table.cells {
        match cell.expiry - table.clock {
            0 if table.clock == MINUTE => family.count(AT_LAST),
            0 => family.count(EXPIRE_NOW),
            1 => family.count(EXPIRE_NEXT),
            _ => {}
        }
    }
}

/// All of them for a short text. For a long one also those where a line ends, since its first lines
/// alone must not be written.
fn lengths(random: &mut Random, table: &Table, live: &[Cell], total: usize) -> Vec<usize> {
    if total <= SHORT {
        return (0..total + PAST).collect();
    }
    let first = line(table.clock, &live[0]).len();
    let some = text(table.clock, &live[..random.place(live.len())]).len();
    let last = total - line(table.clock, &live[live.len() - 1]).len();
    let mut lengths = vec![0, first - 1, first, some, last, total - 1, total, total + 1, total + 1_000];
    lengths.extend([random.place(total), total + random.place(100), LONGEST_LINE * live.len()]);
    lengths
}

fn write(
    library: &Library,
    table: &Table,
    text: &[u8],
    length: usize,
    random: &mut Random,
    family: &mut Family,
) {
    let mut after = random.rubbish_bytes(length);
    let mut bytes = Lent::of_bytes(random, &after);
    let expected = if length < text.len() {
        family.count("refused by 13");
        Written { number: SHORT_BYTES, total: 0 }
    } else {
        family.count("written");
        after[..text.len()].copy_from_slice(text);
        Written { number: 0, total: text.len() as i32 }
    };
    count_length(text, length, family);
    let mut words = Lent::of(random, &table.words);
    let written = (library.tracks)(words.words(), bytes.words());
    let here = format!("{length} bytes for a text of {}", text.len());
    if written != expected {
        family.wrong(format!("answered {written:?}, computed {expected:?}, {here}"));
    } else if !bytes.is_now(&after) {
        family.wrong(format!("bytes not as computed, {here}"));
    } else if !words.untouched() {
        family.wrong(format!("table changed, {here}"));
    }
}

fn count_length(text: &[u8], length: usize, family: &mut Family) {
    if length == text.len() {
        family.count("just enough bytes");
    } else if length + 1 == text.len() {
        family.count("one byte too few");
    } else if length > 0 && length < text.len() && text[length - 1] == b'\n' {
        family.count("room for the first lines only");
    }
    if text.is_empty() && length == 0 {
        family.count("no live cell and no bytes");
    }
}

/// Every line, as the library writes it, with its cell's identifier: none is a point, and each gives
/// its cell.
fn read_back(library: &Library, table: &Table, live: &[Cell], random: &mut Random, family: &mut Family) {
    let mut bytes = vec![0; LONGEST_LINE * live.len()];
    let written = (library.tracks)(&mut table.words.clone(), &mut bytes);
    bytes.truncate(written.total.max(0) as usize);
    let lines: Vec<&[u8]> = bytes.split_inclusive(|&byte| byte == b'\n').collect();
    if lines.len() != live.len() {
        family.wrong(format!("{} lines for {} live cells", lines.len(), live.len()));
    }
    for (line, cell) in lines.iter().zip(live) {
        family.count("read back");
        if !line.starts_with(b"LINESTRING M (") {
            family.wrong(format!("a line that is no LINESTRING: {}", String::from_utf8_lossy(line)));
        }
        let reading = Reading { id: cell.id, line, expected: Some(*cell) };
        family.note(tracked::differs(library, &reading, random));
    }
}

/// As many of the longest lines as there can be, in just enough bytes and in one too few.
fn longest(library: &Library) -> bool {
    let mut random = Random::seeded(0xe100);
    let mut family = Family::named("texts of the longest lines");
    let count = LARGEST as usize;
    for height in heights(count) {
        let cell = |id| Cell { id, x: -KEPT, vx: -VELOCITY, y: -KEPT, vy: -VELOCITY, expiry: MINUTE };
        let cells: Vec<Cell> = (1..=LARGEST).map(cell).collect();
        let clock = 1_000;
        let plan = Plan { capacity: LARGEST, clock, height, cells: cells.clone(), extra: 0 };
        let table = Table { words: build(&mut random, &plan), cells, clock, height };
        let live = live(&table.cells, clock);
        let text = text(clock, &live);
        if text.len() != LONGEST_LINE * count {
            family.wrong(format!("the text has {} bytes", text.len()));
        }
        for length in [text.len() - 1, text.len(), text.len() + 1] {
            write(library, &table, &text, length, &mut random, &mut family);
        }
        read_back(library, &table, &live, &mut random, &mut family);
    }
    family.holds(&["just enough bytes", "one byte too few", "read back"], 2)
}

/// Positions in units where a number in metres gets a digit more, and the last before it, on either side
/// of 0.
fn turning_points() -> Vec<i32> {
    let powers = (0..7).map(|digits| 10_i32.pow(digits));
    powers.flat_map(|power| [power, power - 1, -power, 1 - power]).collect()
}

/// A kept position and a velocity for each of them, so that the cell is there at the clock or at expiry.
fn axes(clock: i32) -> Vec<(i32, i32)> {
    let mut axes = Vec::new();
    for unit in turning_points() {
        for minute in [clock, MINUTE] {
            for velocity in [0, 1, -1, VELOCITY, -VELOCITY] {
                axes.push((unit - velocity * minute, velocity));
            }
        }
    }
    axes.retain(|&(kept, _)| kept.abs() <= KEPT);
    axes
}

/// Numbers of every length, each just come to it and just short of the next.
fn every_length(library: &Library) -> bool {
    let mut random = Random::seeded(0xe400);
    let mut family = Family::named("texts with numbers of every length");
    let clock = 1_000;
    let axes = axes(clock);
    let cells: Vec<Cell> = axes
        .iter()
        .zip(axes.iter().rev())
        .zip(1..)
        .map(|((&(x, vx), &(y, vy)), id)| Cell { id, x, vx, y, vy, expiry: MINUTE })
        .collect();
    for cells in cells.chunks(LARGEST as usize) {
        let height = heights(cells.len())[0];
        let plan = Plan { capacity: LARGEST, clock, height, cells: cells.to_vec(), extra: 0 };
        let table = Table { words: build(&mut random, &plan), cells: cells.to_vec(), clock, height };
        let live = live(&table.cells, clock);
        for [x, ..] in live.iter().flat_map(|cell| points(clock, cell)) {
            match x.abs().checked_ilog10() {
                Some(digits) if x.abs() == 10_i32.pow(digits) => family.count("a power of ten"),
                _ if turning_points().contains(&(x / 10)) => family.count("one unit less"),
                _ => (),
            }
        }
        let text = text(clock, &live);
        write(library, &table, &text, text.len(), &mut random, &mut family);
        read_back(library, &table, &live, &mut random, &mut family);
    }
    family.holds(&["a power of ten", "one unit less", "read back"], 60)
}

/// Into so many bytes that the last 32 bits of their number count too few.
fn more_than_32_bits_count(library: &Library) -> bool {
    let mut random = Random::seeded(0xe300);
    let mut family = Family::named("texts into more bytes than 32 bits count");
    for few in [0, 1, 40, 1 << 31] {
        let table = draw(&mut random, 40);
        let text = text(table.clock, &live(&table.cells, table.clock));
        let mut after = random.rubbish_bytes(LONGEST_LINE * LARGEST as usize);
        let Some(mut vast) = Vast::holding(&after, (1 << 32) + few) else {
            family.count("no room");
            continue;
        };
        after[..text.len()].copy_from_slice(&text);
        let written = (library.tracks)(&mut table.words.clone(), vast.bytes());
        family.count("written");
        let expected = Written { number: 0, total: text.len() as i32 };
        if written != expected || vast.few() != after {
            family.wrong(format!("answered {written:?}, computed {expected:?}, or other bytes"));
        }
    }
    family.holds(&[], 0)
}

/// 1 comes before 13, and not a byte is written.
fn damaged(library: &Library) -> bool {
    let mut random = Random::seeded(0xe200);
    let mut family = Family::named("texts of tables that are not sound");
    for damage in DAMAGES {
        let tables: Vec<_> =
            (0..TRIES).filter_map(|_| (damage.make)(&mut random)).take(DAMAGED as usize).collect();
        for words in tables {
            for length in [0, random.place(300), LONGEST_LINE * LARGEST as usize] {
                let bytes = random.rubbish_bytes(length);
                let mut bytes = Lent::of_bytes(&mut random, &bytes);
                let mut words = Lent::of(&mut random, &words);
                let written = (library.tracks)(words.words(), bytes.words());
                family.count("refused by 1");
                let refusal = Written { number: NOT_SOUND, total: 0 };
                if written != refusal || !bytes.untouched() || !words.untouched() {
                    family.wrong(format!("{}: answered {written:?}, or wrote", damage.name));
                }
            }
        }
    }
    family.holds(&["refused by 1"], 300)
}
