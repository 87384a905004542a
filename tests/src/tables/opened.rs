//! How many nodes a query opens over a day's reports: what the choices of child and of parting gain.
//! And how long calls take, beside a judge of soundness and a plain scan in the same run.
//! Nothing is compared here. Every library gets the same calls, whatever tree it makes of them.

use super::layout::{words_for, HEIGHT, LARGEST};
use super::library::Library;
use super::model::Change;
use super::{reading, scan};
use crate::question::{Kind, Query, Rectangle, Report, MINUTE};
use crate::random::Random;
use std::hint::black_box;
use std::time::{Duration, Instant};

const DAYS: u64 = 3;

/// The radar sees 200 km either way.
const SEEN: i32 = 20_000;

const STORMS: usize = 11;
const CELLS_OF_A_STORM: usize = 20;

/// How far from their storm's middle cells are, and how much faster or slower they go.
const SCATTER: i32 = 1_500;
const UNLIKE: i32 = 12;

/// Minutes from one report of a cell to the next.
const SWEEP: i32 = 5;

const QUERIES_A_MINUTE: u32 = 20;

/// One query in so many is put to the judge and the scan as well.
const BESIDE: u32 = 10;

pub fn print(library: &Library) {
    let mut seen = Seen::default();
    for seed in 0..DAYS {
        Day::begun(library, seed).run(&mut seen);
    }
    seen.print();
}

#[derive(Default)]
struct Seen {
    reports: u32,
    refused: u32,
    reporting: Duration,
    windows: Asked,
    moving: Asked,
    /// Sums over the minutes.
    minutes: u32,
    live: usize,
    nodes: usize,
    height: i32,
}

#[derive(Default)]
struct Asked {
    queries: u32,
    hits: i64,
    opened: i64,
    time: Duration,
    beside: u32,
    /// The library's test of soundness by itself.
    testing: Duration,
    /// The judge and the scan.
    scanning: Duration,
}

impl Asked {
    fn print(&self, name: &str) {
        let mean = |sum: i64| sum as f64 / f64::from(self.queries);
        println!(
            "{name}: {} queries, {:.2} hits and {:.2} opened nodes each, {:.1} microseconds",
            self.queries,
            mean(self.hits),
            mean(self.opened),
            self.time.as_secs_f64() * 1e6 / f64::from(self.queries)
        );
        println!(
            "  beside them: the test of soundness alone {:.1} microseconds, a judge and a plain scan {:.1}",
            self.testing.as_secs_f64() * 1e6 / f64::from(self.beside),
            self.scanning.as_secs_f64() * 1e6 / f64::from(self.beside)
        );
    }
}

impl Seen {
    fn print(&self) {
        let mean = |sum: usize| sum as f64 / f64::from(self.minutes);
        println!(
            "{} reports, {} calls refused, {:.1} microseconds a report",
            self.reports,
            self.refused,
            self.reporting.as_secs_f64() * 1e6 / f64::from(self.reports)
        );
        println!(
            "in the mean {:.1} live cells, {:.1} nodes, height {:.2}",
            mean(self.live),
            mean(self.nodes),
            mean(self.height as usize)
        );
        self.windows.print("windows");
        self.moving.print("moving queries");
    }
}

/// The cells of a storm move with it.
struct Storm {
    x: i32,
    y: i32,
    vx: i32,
    vy: i32,
    cells: Vec<StormCell>,
}

struct StormCell {
    id: i32,
    /// From the storm's middle.
    dx: i32,
    dy: i32,
    /// When it is seen last.
    last: i32,
    reported: bool,
}

struct Day<'a> {
    library: &'a Library,
    random: Random,
    words: Vec<i32>,
    storms: Vec<Storm>,
    catchments: Vec<Rectangle>,
    next_id: i32,
}

impl<'a> Day<'a> {
    fn begun(library: &'a Library, seed: u64) -> Day<'a> {
        let mut words = vec![0; words_for(LARGEST)];
        (library.fresh)(&mut words, LARGEST);
        let mut random = Random::seeded(0xda00 + seed);
        let catchments = (0..200).map(|_| catchment(&mut random)).collect();
        let mut day = Day { library, random, words, storms: Vec::new(), catchments, next_id: 1 };
        for _ in 0..STORMS {
            let cells = (0..CELLS_OF_A_STORM).map(|_| day.cell(0)).collect();
            let storm = Storm { cells, ..day.storm() };
            day.storms.push(storm);
        }
        day
    }

    fn run(&mut self, seen: &mut Seen) {
        // Nothing lives at the last minute of all, so nothing is reported then.
        for minute in 0..MINUTE {
            self.report_sweep(minute, seen);
            for _ in 0..QUERIES_A_MINUTE {
                self.ask(minute, seen);
            }
            self.move_on(minute);
            seen.minutes += 1;
            seen.live += reading::cells(&self.words).iter().filter(|cell| minute < cell.expiry).count();
            seen.nodes += reading::inners(&self.words).len() + 1;
            seen.height += self.words[HEIGHT];
        }
    }

    /// Anywhere in sight, at 10 to 25 m/s; without its cells.
    fn storm(&mut self) -> Storm {
        let (x, y) = (self.random.between(-SEEN, SEEN), self.random.between(-SEEN, SEEN));
        let (vx, vy) = loop {
            let (vx, vy) = (self.random.between(-150, 150), self.random.between(-150, 150));
            if (60 * 60..=150 * 150).contains(&(vx * vx + vy * vy)) {
                break (vx, vy);
            }
        };
        Storm { x, y, vx, vy, cells: Vec::new() }
    }

    fn cell(&mut self, minute: i32) -> StormCell {
        let id = self.next_id;
        self.next_id += 1;
        let (dx, dy) = (self.random.between(-SCATTER, SCATTER), self.random.between(-SCATTER, SCATTER));
        StormCell { id, dx, dy, last: minute + self.random.between(30, 90), reported: false }
    }

    /// Each cell once in a sweep, by its identifier.
    fn report_sweep(&mut self, minute: i32, seen: &mut Seen) {
        for storm in 0..STORMS {
            for place in 0..CELLS_OF_A_STORM {
                if self.storms[storm].cells[place].last < minute {
                    self.lose(minute, storm, place, seen);
                }
                if self.storms[storm].cells[place].id % SWEEP == minute % SWEEP {
                    let report = self.report(minute, storm, place);
                    let from = Instant::now();
                    self.change(&Change::Report(report), seen);
                    seen.reporting += from.elapsed();
                    seen.reports += 1;
                }
            }
        }
    }

    /// A cell that is no longer seen is dropped, but for one in ten, and another forms.
    fn lose(&mut self, minute: i32, storm: usize, place: usize, seen: &mut Seen) {
        let StormCell { id, reported, .. } = self.storms[storm].cells[place];
        if reported && self.random.between(0, 9) > 0 {
            self.change(&Change::Drop { id, minute }, seen);
        }
        self.storms[storm].cells[place] = self.cell(minute);
    }

    fn report(&mut self, minute: i32, storm: usize, place: usize) -> Report {
        let random = &mut self.random;
        let of = &mut self.storms[storm];
        let cell = &mut of.cells[place];
        cell.reported = true;
        let x = of.x + cell.dx + random.between(-20, 20);
        let y = of.y + cell.dy + random.between(-20, 20);
        let vx = of.vx + random.between(-UNLIKE, UNLIKE);
        let vy = of.vy + random.between(-UNLIKE, UNLIKE);
        let expiry = (minute + random.between(30, 60)).min(MINUTE);
        Report { id: cell.id, x, y, vx, vy, minute, expiry }
    }

    fn change(&mut self, change: &Change, seen: &mut Seen) {
        if (self.library.change)(&mut self.words, change) != 0 {
            seen.refused += 1;
        }
    }

    /// A storm out of sight gives way to another: none of its cells is seen again.
    fn move_on(&mut self, minute: i32) {
        for place in 0..STORMS {
            let storm = &mut self.storms[place];
            storm.x += storm.vx;
            storm.y += storm.vy;
            if storm.x.abs() > SEEN || storm.y.abs() > SEEN {
                let gone = std::mem::take(&mut storm.cells);
                let cells = gone.into_iter().map(|cell| StormCell { last: minute, ..cell }).collect();
                self.storms[place] = Storm { cells, ..self.storm() };
            }
        }
    }

    /// A catchment over the next minutes; or a rectangle that sets out there.
    fn ask(&mut self, minute: i32, seen: &mut Seen) {
        let first = self.catchments[self.random.place(self.catchments.len())];
        let kind = if self.random.coin() { Kind::Window } else { Kind::Moving };
        let shortest = if kind == Kind::Moving { 1 } else { 0 };
        let end = minute + self.random.between(shortest, 60);
        if end > MINUTE {
            return;
        }
        let last = match kind {
            Kind::Window => first,
            Kind::Moving => {
                let (vx, vy) = (self.random.between(-100, 100), self.random.between(-100, 100));
                shifted(&first, vx * (end - minute), vy * (end - minute))
            }
        };
        let query = Query { start: minute, end, first, last };
        let mut list = [0; LARGEST as usize];
        let asked = if kind == Kind::Window { &mut seen.windows } else { &mut seen.moving };
        let from = Instant::now();
        let answer = (self.library.query)(kind, &mut self.words, &mut list, &query.numbers());
        asked.time += from.elapsed();
        asked.queries += 1;
        asked.hits += i64::from(answer.hits);
        asked.opened += i64::from(answer.opened);
        if asked.queries % BESIDE == 0 {
            let from = Instant::now();
            black_box((self.library.open)(&mut self.words));
            asked.testing += from.elapsed();
            let from = Instant::now();
            black_box(scan::truth(&self.words, &scan::Asked { kind, query }));
            asked.scanning += from.elapsed();
            asked.beside += 1;
        }
        seen.refused += u32::from(answer.number != 0);
    }
}

fn catchment(random: &mut Random) -> Rectangle {
    let (width, height) = (random.between(100, 2_000), random.between(100, 2_000));
    let (x, y) = (random.between(-SEEN, SEEN - width), random.between(-SEEN, SEEN - height));
    Rectangle::of((x, x + width), (y, y + height))
}

fn shifted(rectangle: &Rectangle, dx: i32, dy: i32) -> Rectangle {
    let Rectangle { xlow, xhigh, ylow, yhigh } = *rectangle;
    Rectangle::of((xlow + dx, xhigh + dx), (ylow + dy, yhigh + dy))
}
