//! What the builder writes, put before the judge: no library takes part.

use super::Family;
use crate::random::Random;
use crate::tables::builder::{draw, draw_with, fewest_cells, most_cells};
use crate::tables::judge;
use crate::tables::layout::LARGEST;
use crate::tables::reading;
use crate::tally::Tally;

const TABLES: u32 = 2_000;

pub fn run(tally: &mut Tally) {
    let mut random = Random::seeded(0x4000);
    let mut family = Family::named("tables built");
    for _ in 0..TABLES {
        let table = if random.coin() {
            let capacity = random.between(1, LARGEST);
            draw(&mut random, capacity)
        } else {
            let height = random.between(0, 4) as usize;
            let most = most_cells(height).min(LARGEST as usize) as i32;
            let count = random.between(fewest_cells(height) as i32, most);
            let capacity = random.between(count.max(1), LARGEST);
            draw_with(&mut random, capacity, count as usize, Some(height))
        };
        family.count(format!("height {}", table.height));
        let broken = judge::broken(&table.words);
        if !broken.is_empty() {
            family.wrong(format!("not sound: {broken:?}"));
        }
        let (mut held, mut given) = (reading::cells(&table.words), table.cells);
        held.sort_unstable();
        given.sort_unstable();
        if held != given {
            family.wrong("holds other cells than it was built from");
        }
    }
    let meant = ["height 0", "height 1", "height 2", "height 3", "height 4"];
    tally.check(family.holds(&meant, 100));
}
