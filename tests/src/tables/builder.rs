//! Writes sound tables: any tree that the rules allow, not only one that a call would make.

use super::layout::*;
use super::worlds::{Cell, WORLDS};
use crate::random::Random;

pub struct Plan {
    pub capacity: i32,
    pub clock: i32,
    pub height: usize,
    pub cells: Vec<Cell>,
    /// Words lent beyond what the table needs.
    pub extra: usize,
}

/// A table and the cells that were put into it.
pub struct Table {
    pub words: Vec<i32>,
    pub cells: Vec<Cell>,
    pub clock: i32,
    pub height: usize,
}

/// The heights that a tree of so many cells can have.
pub fn heights(cells: usize) -> Vec<usize> {
    (0..=4).filter(|&height| fewest_cells(height) <= cells && cells <= most_cells(height)).collect()
}

/// A leaf root may be empty. Else the root has two subtrees, and each node below it three entries.
pub fn fewest_cells(height: usize) -> usize {
    if height == 0 {
        0
    } else {
        FEWEST_IN_ROOT * FEWEST.pow(height as u32)
    }
}

pub fn most_cells(height: usize) -> usize {
    FULL.pow(height as u32 + 1)
}

/// A table for so many cells, as full as chance has it.
pub fn draw(random: &mut Random, capacity: i32) -> Table {
    let count = match random.between(0, 3) {
        0 => capacity,
        _ => random.between(0, capacity),
    };
    draw_with(random, capacity, count as usize, None)
}

/// Of the height that is asked for, or of any that so many cells allow.
pub fn draw_with(random: &mut Random, capacity: i32, count: usize, height: Option<usize>) -> Table {
    let world = WORLDS[random.place(WORLDS.len())];
    let clock = world.clock(random);
    let possible = heights(count);
    let height = height.unwrap_or_else(|| possible[random.place(possible.len())]);
    let cells = world.cells(random, count, clock);
    let extra = random.one_of(&[0, 0, 1, 50, 96, 200]) as usize;
    let words = build(random, &Plan { capacity, clock, height, cells: cells.clone(), extra });
    Table { words, cells, clock, height }
}

pub fn build(random: &mut Random, plan: &Plan) -> Vec<i32> {
    let mut words = random.rubbish_words(words_for(plan.capacity) + plan.extra);
    let mut numbers: Vec<usize> = (0..nodes_for(plan.capacity)).collect();
    for &node in &numbers {
        words[node_at(node)] = 0;
    }
    random.shuffle(&mut numbers);
    let mut builder = Builder { random, words, clock: plan.clock, numbers };
    let mut cells = plan.cells.clone();
    let root = builder.subtree(&mut cells, plan.height, true);
    let mut words = builder.words;
    words[CAPACITY] = plan.capacity;
    words[CLOCK] = plan.clock;
    words[ROOT] = root.node as i32;
    words[HEIGHT] = plan.height as i32;
    words
}

struct Builder<'a> {
    random: &'a mut Random,
    words: Vec<i32>,
    clock: i32,
    /// The nodes not yet used, in the order in which they will be.
    numbers: Vec<usize>,
}

struct Subtree {
    node: usize,
    /// The latest stamp in it; 0 if it has none.
    stamp: i32,
}

impl Builder<'_> {
    fn subtree(&mut self, cells: &mut [Cell], height: usize, is_root: bool) -> Subtree {
        let node = self.numbers.pop().expect("a node for every three cells");
        if height == 0 {
            self.words[node_at(node)] = cells.len() as i32;
            for (place, cell) in cells.iter().enumerate() {
                put_cell(&mut self.words, entry_at(node, place), cell);
            }
            return Subtree { node, stamp: 0 };
        }
        self.arrange(cells);
        let mut rest = cells;
        let mut latest = 0;
        let sizes = self.sizes(rest.len(), height, is_root);
        self.words[node_at(node)] = sizes.len() as i32;
        for (place, &size) in sizes.iter().enumerate() {
            let (here, others) = rest.split_at_mut(size);
            let child = self.subtree(here, height - 1, false);
            let stamp = self.stamp_from(child.stamp);
            let at = entry_at(node, place);
            self.words[at + inner::CHILD] = child.node as i32;
            self.words[at + inner::STAMP] = stamp;
            work_out(&mut self.words, at, height - 1);
            latest = latest.max(stamp);
            rest = others;
        }
        Subtree { node, stamp: latest }
    }

    /// Neighbours together, or not.
    fn arrange(&mut self, cells: &mut [Cell]) {
        let clock = self.clock;
        match self.random.between(0, 3) {
            0 => self.random.shuffle(cells),
            1 => cells.sort_by_key(|cell| cell.x_at(clock)),
            2 => cells.sort_by_key(|cell| cell.y_at(clock)),
            _ => cells.sort_by_key(|cell| (cell.vx, cell.y_at(clock))),
        }
    }

    /// How many cells go into each child of a node at this height.
    fn sizes(&mut self, cells: usize, height: usize, is_root: bool) -> Vec<usize> {
        let fewest = FEWEST.pow(height as u32);
        let most = most_cells(height - 1);
        let least_children = cells.div_ceil(most).max(if is_root { FEWEST_IN_ROOT } else { FEWEST });
        let most_children = (cells / fewest).min(FULL);
        let children = self.random.between(least_children as i32, most_children as i32) as usize;
        let mut sizes = vec![fewest; children];
        for _ in fewest * children..cells {
            let open: Vec<_> = (0..children).filter(|&child| sizes[child] < most).collect();
            sizes[open[self.random.place(open.len())]] += 1;
        }
        sizes
    }

    fn stamp_from(&mut self, earliest: i32) -> i32 {
        match self.random.between(0, 3) {
            0 => earliest,
            1 => self.clock,
            _ => self.random.between(earliest, self.clock),
        }
    }
}

pub fn put_cell(words: &mut [i32], at: usize, cell: &Cell) {
    words[at..at + cell::READ].copy_from_slice(&[cell.id, cell.x, cell.vx, cell.y, cell.vy, cell.expiry]);
}

/// Works out the inner entry from its child's entries at the stamp that it has: rows and expiry.
pub fn work_out(words: &mut [i32], at: usize, child_height: usize) {
    let stamp = words[at + inner::STAMP];
    let child = words[at + inner::CHILD] as usize;
    let entries: Vec<usize> =
        (0..words[node_at(child)] as usize).map(|place| entry_at(child, place)).collect();
    for axis in 0..2 {
        let rows: Vec<_> = entries.iter().map(|&entry| row(words, entry, axis, child_height == 0)).collect();
        let Some(slow) = rows.iter().map(|row| row[inner::SLOW]).min() else { return };
        let fast = rows.iter().map(|row| row[inner::FAST]).max().unwrap();
        let low = rows.iter().map(|row| row[inner::LOW] + row[inner::SLOW] * stamp).min().unwrap();
        let high = rows.iter().map(|row| row[inner::HIGH] + row[inner::FAST] * stamp).max().unwrap();
        let from = at + inner::ROWS[axis];
        words[from..from + 4].copy_from_slice(&[low - slow * stamp, high - fast * stamp, slow, fast]);
    }
    let expiry = if child_height == 0 { cell::EXPIRY } else { inner::UNTIL };
    words[at + inner::UNTIL] = entries.iter().map(|&entry| words[entry + expiry]).max().unwrap();
}

fn row(words: &[i32], entry: usize, axis: usize, of_cell: bool) -> [i32; 4] {
    if of_cell {
        let (position, velocity) = [(cell::X, cell::VX), (cell::Y, cell::VY)][axis];
        let (position, velocity) = (words[entry + position], words[entry + velocity]);
        [position, position, velocity, velocity]
    } else {
        let from = entry + inner::ROWS[axis];
        [words[from], words[from + 1], words[from + 2], words[from + 3]]
    }
}
