//! How long the text of a table takes to write, beside its sheet in the same run. Each of the two goes through
//! the table twice, to measure and to write, and for n live cells searches it 2n + 1 times for the next one.
//! Nothing is compared here.

use super::chart::LONGEST_LINE;
use super::layout::{words_for, KEPT, LARGEST};
use super::library::Library;
use super::model::Change;
use super::sheet::sheet;
use super::worlds::Cell;
use crate::question::{Report, MINUTE, VELOCITY};
use crate::random::Random;
use std::hint::black_box;
use std::time::{Duration, Instant};

/// An odd number, so that one of them is in the middle.
const ROUNDS: usize = 51;

const WRITES_A_ROUND: u32 = 10;

pub fn print(library: &Library) {
    time("cells as they are reported", library, reported(library));
    time("cells with the longest lines", library, with_longest_lines(library));
}

/// Half an hour's reports, all live.
fn reported(library: &Library) -> Vec<i32> {
    let mut random = Random::seeded(0x10000);
    let mut words = vec![0; words_for(LARGEST)];
    must((library.fresh)(&mut words, LARGEST));
    for id in 1..=LARGEST {
        let (x, y) = (random.between(-20_000, 20_000), random.between(-20_000, 20_000));
        let (vx, vy) = (random.between(-100, 100), random.between(-100, 100));
        let minute = 600 + 30 * id / LARGEST;
        let expiry = 630 + random.between(1, 30);
        must((library.change)(&mut words, &Change::Report(Report { id, x, y, vx, vy, minute, expiry })));
    }
    words
}

/// No report gives such cells; a sheet does.
fn with_longest_lines(library: &Library) -> Vec<i32> {
    let cell = |id| Cell { id, x: -KEPT, vx: -VELOCITY, y: -KEPT, vy: -VELOCITY, expiry: MINUTE };
    let cells: Vec<Cell> = (1..=LARGEST).map(cell).collect();
    let mut words = vec![0; words_for(LARGEST)];
    must((library.read)(&mut words, LARGEST, &sheet(1_000, &cells)));
    words
}

fn must(number: i32) {
    assert!(number == 0, "refused by {number}");
}

/// In rounds of one and then the other, so that both meet the same disturbances.
fn time(name: &str, library: &Library, mut words: Vec<i32>) {
    let mut bytes = vec![0; LONGEST_LINE * LARGEST as usize];
    let sheet = (library.write)(&mut words, &mut bytes);
    let text = (library.tracks)(&mut words, &mut bytes);
    must(sheet.number);
    must(text.number);
    let mut sheets = Vec::new();
    let mut texts = Vec::new();
    let mut tests = Vec::new();
    for _ in 0..ROUNDS {
        sheets.push(timed(|| (library.write)(&mut words, &mut bytes)));
        texts.push(timed(|| (library.tracks)(&mut words, &mut bytes)));
        tests.push(timed(|| (library.open)(&mut words)));
    }
    let ratio = |(text, sheet): (&Duration, &Duration)| text.as_secs_f64() / sheet.as_secs_f64();
    let mut ratios: Vec<f64> = texts.iter().zip(&sheets).map(ratio).collect();
    ratios.sort_by(f64::total_cmp);
    println!("{LARGEST} {name}, in the mean of {ROUNDS} rounds of {WRITES_A_ROUND}:");
    println!("  sheet of {} bytes: {:.1} microseconds", sheet.total, mean(&sheets));
    println!("  text of {} bytes: {:.1} microseconds", text.total, mean(&texts));
    println!("  the test of soundness, which is part of each: {:.1} microseconds", mean(&tests));
    println!(
        "  text against sheet: {:.2} in the middle, from {:.2} to {:.2} in half of the rounds",
        ratios[ROUNDS / 2],
        ratios[ROUNDS / 4],
        ratios[3 * ROUNDS / 4]
    );
}

fn timed<T>(mut call: impl FnMut() -> T) -> Duration {
    let from = Instant::now();
    for _ in 0..WRITES_A_ROUND {
        black_box(call());
    }
    from.elapsed() / WRITES_A_ROUND
}

/// In microseconds.
fn mean(durations: &[Duration]) -> f64 {
    durations.iter().sum::<Duration>().as_secs_f64() * 1e6 / durations.len() as f64
}
