//! Sheets written from sound tables, into buffers of every length up to past the total, and refused
//! for words that are not sound.

use super::Family;
use crate::question::MINUTE;
use crate::random::Random;
use crate::refusal::{NOT_SOUND, SHORT_BYTES};
use crate::tables::builder::{draw, Table};
use crate::tables::damage::DAMAGES;
use crate::tables::library::{Lent, Library, Written};
use crate::tables::sheet::{live, sheet};
use crate::tally::Tally;

const TABLES: u32 = 1_200;
const DAMAGED: u32 = 10;
const TRIES: u32 = 20_000;

/// Sheets up to this long are written into buffers of every length.
const SHORT: usize = 200;

pub fn run(library: &Library, tally: &mut Tally) {
    tally.check(sound(library));
    tally.check(damaged(library));
}

fn sound(library: &Library) -> bool {
    let mut random = Random::seeded(0x9000);
    let mut family = Family::named("sheets of sound tables");
    for _ in 0..TABLES {
        let capacity = random.one_of(&[1, 2, 3, 5, 8, 9, 16, 40, 255, 256]);
        let table = draw(&mut random, capacity);
        let live = live(&table.cells, table.clock);
        let sheet = sheet(table.clock, &live);
        family.count(match live.len() {
            0 => "no live cell",
            count if count as i32 == capacity => "full",
            _ => "some live cells",
        });
        if live.len() < table.cells.len() {
            family.count("expired cells");
        }
        count_ends(&table, &mut family);
        for length in lengths(&mut random, sheet.len()) {
            write(library, &table, &sheet, length, &mut random, &mut family);
        }
    }
    let ends = family.brought_up(&[EXPIRE_NOW, EXPIRE_NEXT, AT_LAST], 40);
    let meant = ["no live cell", "full", "expired cells", "written", "just enough bytes", "one byte too few"];
    family.holds(&meant, 20) && ends
}

const EXPIRE_NOW: &str = "tables with cells that expire at the clock";
const EXPIRE_NEXT: &str = "tables with cells that expire in the minute after";
const AT_LAST: &str = "tables with cells at 1,440";

fn count_ends(table: &Table, family: &mut Family) {
    let expire_at = |minute: i32| table.cells.iter().any(|cell| cell.expiry == minute);
    let at_last = table.clock == MINUTE && !table.cells.is_empty();
    let said =
        [(expire_at(table.clock), EXPIRE_NOW), (expire_at(table.clock + 1), EXPIRE_NEXT), (at_last, AT_LAST)];
    said.iter().filter(|(is, _)| *is).for_each(|(_, name)| family.count(*name));
}

fn lengths(random: &mut Random, total: usize) -> Vec<usize> {
    if total <= SHORT {
        return (0..total + 30).collect();
    }
    let mut some = vec![0, 1, 15, 16, 17, total - 24, total - 1, total, total + 1, total + 1_000];
    some.extend([random.place(total), total + random.place(100)]);
    some
}

fn write(
    library: &Library,
    table: &Table,
    sheet: &[u8],
    length: usize,
    random: &mut Random,
    family: &mut Family,
) {
    let mut after = random.rubbish_bytes(length);
    let mut bytes = Lent::of_bytes(random, &after);
    let expected = if length < sheet.len() {
        family.count("refused by 13");
        Written { number: SHORT_BYTES, total: 0 }
    } else {
        family.count("written");
        after[..sheet.len()].copy_from_slice(sheet);
        Written { number: 0, total: sheet.len() as i32 }
    };
    if length == sheet.len() {
        family.count("just enough bytes");
    } else if length + 1 == sheet.len() {
        family.count("one byte too few");
    }
    let mut words = Lent::of(random, &table.words);
    let written = (library.write)(words.words(), bytes.words());
    let here = format!("{length} bytes for a sheet of {}", sheet.len());
    if written != expected {
        family.wrong(format!("answered {written:?}, computed {expected:?}, {here}"));
    } else if !bytes.is_now(&after) {
        family.wrong(format!("bytes not as computed, {here}"));
    } else if !words.untouched() {
        family.wrong(format!("table changed, {here}"));
    }
}

/// 1 comes before 13, and not a byte is written.
fn damaged(library: &Library) -> bool {
    let mut random = Random::seeded(0x9100);
    let mut family = Family::named("sheets of tables that are not sound");
    for damage in DAMAGES {
        let tables: Vec<_> =
            (0..TRIES).filter_map(|_| (damage.make)(&mut random)).take(DAMAGED as usize).collect();
        for words in tables {
            let length = random.one_of(&[0, 16, 40, 6_160, 7_000]) as usize;
            let bytes = random.rubbish_bytes(length);
            let mut bytes = Lent::of_bytes(&mut random, &bytes);
            let mut words = Lent::of(&mut random, &words);
            let written = (library.write)(words.words(), bytes.words());
            family.count("refused by 1");
            let refusal = Written { number: NOT_SOUND, total: 0 };
            if written != refusal || !bytes.untouched() || !words.untouched() {
                family.wrong(format!("{}: answered {written:?}, or wrote", damage.name));
            }
        }
    }
    family.holds(&["refused by 1"], 100)
}
