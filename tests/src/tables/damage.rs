//! Sound tables, each with one thing made wrong and, where that can be, all else kept right:
//! after a change beneath, the entries above are worked out afresh.

use super::builder::{draw, draw_with, fewest_cells, most_cells, put_cell, work_out};
use super::judge::Clause;
use super::layout::*;
use super::reading::{self, Inner, Reached};
use super::worlds::Cell;
use crate::question::{MINUTE, VELOCITY};
use crate::random::Random;

pub struct Damage {
    pub name: &'static str,
    /// Gives none where the table that was drawn has no place for the damage.
    pub make: fn(&mut Random) -> Option<Vec<i32>>,
    /// What is broken by it.
    pub breaks: Clause,
    /// Whether nothing else is.
    pub alone: bool,
}

const fn alone(name: &'static str, breaks: Clause, make: fn(&mut Random) -> Option<Vec<i32>>) -> Damage {
    Damage { name, make, breaks, alone: true }
}

const fn among_others(
    name: &'static str,
    breaks: Clause,
    make: fn(&mut Random) -> Option<Vec<i32>>,
) -> Damage {
    Damage { name, make, breaks, alone: false }
}

pub const DAMAGES: &[Damage] = &[
    alone("N is 0", Clause::Capacity, |r| empty_of_capacity(r, 1, 0)),
    alone("N is 257", Clause::Capacity, capacity_257),
    alone("N is -1", Clause::Capacity, |r| empty_of_capacity(r, 1, -1)),
    alone("N is the least number", Clause::Capacity, |r| empty_of_capacity(r, 1, i32::MIN)),
    among_others("N is the greatest number", Clause::Capacity, |r| empty_of_capacity(r, 256, i32::MAX)),
    alone("a word too few", Clause::Words, a_word_too_few),
    among_others("far too few words", Clause::Words, far_too_few_words),
    alone("clock -1", Clause::Clock, |r| leaf_root_with(r, CLOCK, -1)),
    alone("clock 1,441", Clause::Clock, |r| any_with(r, CLOCK, MINUTE + 1)),
    alone("root is the node past the last", Clause::Root, root_past_the_last),
    alone("root is negative", Clause::Root, |r| {
        let root = r.one_of(&[-1, -2, i32::MIN]);
        any_with(r, ROOT, root)
    }),
    alone("root is the greatest number", Clause::Root, |r| any_with(r, ROOT, i32::MAX)),
    among_others("root is a free node of an inner root's table", Clause::Count, root_is_free),
    alone("height -1", Clause::Height, |r| any_with(r, HEIGHT, -1)),
    among_others("height one less: an inner node where a leaf is due", Clause::NotFree, height_one_less),
    among_others("height one more: a leaf where an inner node is due", Clause::Child, height_one_more),
    among_others("an empty root that is no leaf", Clause::Count, empty_and_no_leaf),
    alone("2 cells in a leaf below the root", Clause::Count, two_in_a_leaf),
    alone("2 entries in an inner node below the root", Clause::Count, two_in_an_inner_node),
    alone("1 entry in an inner root", Clause::Count, |r| inner_root_cut(r, 1)),
    alone("no entry in an inner root", Clause::Count, |r| inner_root_cut(r, 0)),
    alone("9 cells in a leaf", Clause::Count, nine_in_a_leaf),
    among_others("9 entries in an inner node", Clause::Count, |r| count_of_inner(r, 9)),
    among_others("more entries than a table has words", Clause::Count, |r| count_of_inner(r, i32::MAX)),
    alone("count -1 in a leaf root", Clause::Count, |r| leaf_root_count(r, -1)),
    alone("count of the least number in a leaf root", Clause::Count, |r| leaf_root_count(r, i32::MIN)),
    among_others("count -1 in a node below the root", Clause::Count, |r| count_below_root(r, -1)),
    among_others("count 0 in a node below the root", Clause::Count, |r| count_below_root(r, 0)),
    alone("a child reached twice", Clause::ReachedTwice, child_twice),
    among_others("a child of two parents", Clause::ReachedTwice, child_of_two),
    among_others("the root its own descendant", Clause::ReachedTwice, root_as_child),
    among_others("the root its own descendant, for ever", Clause::ReachedTwice, root_as_child_for_ever),
    alone("a chain of nodes, each with one child eight times", Clause::ReachedTwice, chain),
    alone("a child is the node past the last", Clause::Child, child_past_the_last),
    alone("a child is -1", Clause::Child, |r| child_is(r, -1)),
    alone("a child is the least number", Clause::Child, |r| child_is(r, i32::MIN)),
    alone("a child is the greatest number", Clause::Child, |r| child_is(r, i32::MAX)),
    alone("an unreached node with a count", Clause::NotFree, unreached_with_count),
    alone("identifier 0", Clause::Identifier, |r| cell_word(r, &[cell::ID], &[0])),
    alone("a negative identifier", Clause::Identifier, |r| cell_word(r, &[cell::ID], &[-1, i32::MIN])),
    alone("an identifier twice in one leaf", Clause::IdentifierTwice, |r| twice(r, true)),
    alone("an identifier twice in two leaves", Clause::IdentifierTwice, |r| twice(r, false)),
    alone("a cell more than N", Clause::TooMany, one_too_many),
    alone("expiry 1,441", Clause::Expiry, |r| cell_word(r, &[cell::EXPIRY], &[MINUTE + 1])),
    alone("expiry -1", Clause::Expiry, |r| cell_word(r, &[cell::EXPIRY], &[-1])),
    alone("kept position 837,281", Clause::Position, |r| cell_word(r, &[cell::X, cell::Y], &[KEPT + 1])),
    alone("kept position -837,281", Clause::Position, |r| cell_word(r, &[cell::X, cell::Y], &[-KEPT - 1])),
    alone("velocity 513", Clause::Velocity, |r| cell_word(r, &[cell::VX, cell::VY], &[VELOCITY + 1])),
    alone("velocity -513", Clause::Velocity, |r| cell_word(r, &[cell::VX, cell::VY], &[-VELOCITY - 1])),
    among_others("stale above a faster cell", Clause::EntryVelocity, |r| stale(r, 0, faster)),
    among_others("stale two levels above a faster cell", Clause::EntryVelocity, |r| stale(r, 1, faster)),
    alone("stale above a cell one farther", Clause::EntryEdge, |r| stale(r, 0, one_farther)),
    alone("stale two levels above a cell one farther", Clause::EntryEdge, |r| stale(r, 1, one_farther)),
    alone("edges kept as at the stamp", Clause::EntryEdge, |r| {
        edges_kept_as_at(r, |words, at| words[at + inner::STAMP])
    }),
    alone("edges kept as at the clock", Clause::EntryEdge, |r| edges_kept_as_at(r, |words, _| words[CLOCK])),
    alone("edges worked out at the clock, the stamp left", Clause::EntryEdge, stamp_left_behind),
    alone("an edge one off", Clause::EntryEdge, edge_one_off),
    alone("an edge of each axis exchanged", Clause::EntryEdge, edges_exchanged),
    among_others("an edge out of range", Clause::EdgeRange, edge_out_of_range),
    alone("a velocity one off", Clause::EntryVelocity, velocity_one_off),
    alone("a greatest expiry one off", Clause::GreatestExpiry, expiry_one_off),
    alone("a stamp after the clock", Clause::StampAfterClock, stamp_after_clock),
    alone("clock before a stamp", Clause::StampAfterClock, clock_before_stamp),
    alone("a stamp before one beneath", Clause::StampBeforeBeneath, stamp_before_beneath),
    alone("a negative stamp", Clause::StampBelowZero, stamp_below_zero),
];

const CAPACITIES: [i32; 10] = [1, 2, 3, 7, 8, 9, 16, 40, 255, 256];

/// A sound table of any capacity and height.
fn any(random: &mut Random) -> Vec<i32> {
    let capacity = random.one_of(&CAPACITIES);
    draw(random, capacity).words
}

/// With a root that is a leaf, and at least so many cells in it.
fn leaf_root(random: &mut Random, least: i32) -> Vec<i32> {
    let capacity = random.one_of(&CAPACITIES).max(least);
    let count = random.between(least, capacity.min(FULL as i32));
    draw_with(random, capacity, count as usize, Some(0)).words
}

/// At least so high.
fn tree(random: &mut Random, least: usize) -> Vec<i32> {
    let height = random.between(least as i32, 4) as usize;
    let fewest = fewest_cells(height) as i32;
    let capacity = random.one_of(&CAPACITIES).max(fewest + random.between(0, 3)).min(LARGEST);
    let most = capacity.min(most_cells(height) as i32);
    let count = if random.coin() {
        random.between(fewest, most)
    } else {
        random.between(fewest, (fewest + 9).min(most))
    };
    draw_with(random, capacity, count as usize, Some(height)).words
}

fn one<T: Copy>(random: &mut Random, list: &[T]) -> Option<T> {
    if list.is_empty() {
        None
    } else {
        Some(list[random.place(list.len())])
    }
}

/// Works out every inner entry afresh, from the leaves up, but for the one that begins at `kept`.
fn rework_but(words: &mut [i32], kept: Option<usize>) {
    for inner in reading::inners(words).into_iter().rev() {
        if Some(inner.at) != kept {
            work_out(words, inner.at, inner.child.height);
        }
    }
}

fn rework(words: &mut [i32]) {
    rework_but(words, None);
}

fn free_subtree(words: &mut [i32], from: Reached) {
    for reached in reading::nodes_from(words, from) {
        words[node_at(reached.node)] = 0;
    }
}

fn any_inner(random: &mut Random, words: &[i32]) -> Option<Inner> {
    one(random, &reading::inners(words))
}

/// Lends room for a node past the last one that the capacity gives.
fn with_room_past_the_last(random: &mut Random, words: &mut Vec<i32>) -> usize {
    words.truncate(words_for(words[CAPACITY]));
    let more = NODE + random.place(2 * NODE);
    words.extend(random.rubbish_words(more));
    nodes_for(words[CAPACITY])
}

fn move_node(words: &mut [i32], from: usize, to: usize) {
    words.copy_within(node_at(from)..node_at(from) + NODE, node_at(to));
    words[node_at(from)] = 0;
}

fn any_with(random: &mut Random, at: usize, value: i32) -> Option<Vec<i32>> {
    let mut words = any(random);
    words[at] = value;
    Some(words)
}

fn leaf_root_with(random: &mut Random, at: usize, value: i32) -> Option<Vec<i32>> {
    let mut words = leaf_root(random, 0);
    words[at] = value;
    Some(words)
}

fn empty_of_capacity(random: &mut Random, capacity: i32, claimed: i32) -> Option<Vec<i32>> {
    let mut words = draw_with(random, capacity, 0, None).words;
    words[CAPACITY] = claimed;
    Some(words)
}

/// There are as many nodes for 257 cells as for 256.
fn capacity_257(random: &mut Random) -> Option<Vec<i32>> {
    let mut words = draw(random, LARGEST).words;
    words[CAPACITY] = LARGEST + 1;
    Some(words)
}

/// The last node is not full, so that the missing word is one that nothing reads.
fn a_word_too_few(random: &mut Random) -> Option<Vec<i32>> {
    let mut words = any(random);
    let capacity = words[CAPACITY];
    if reading::count(&words, nodes_for(capacity) - 1) == FULL {
        return None;
    }
    words.truncate(words_for(capacity) - 1);
    Some(words)
}

fn far_too_few_words(random: &mut Random) -> Option<Vec<i32>> {
    let mut words = any(random);
    let capacity = words[CAPACITY];
    words.truncate(1 + random.place(words_for(capacity) - 1));
    Some(words)
}

fn root_past_the_last(random: &mut Random) -> Option<Vec<i32>> {
    let mut words = any(random);
    let past = with_room_past_the_last(random, &mut words);
    let root = words[ROOT] as usize;
    move_node(&mut words, root, past);
    words[ROOT] = past as i32;
    Some(words)
}

fn root_is_free(random: &mut Random) -> Option<Vec<i32>> {
    let mut words = tree(random, 1);
    words[ROOT] = one(random, &reading::free_nodes(&words))? as i32;
    Some(words)
}

fn height_one_less(random: &mut Random) -> Option<Vec<i32>> {
    let mut words = tree(random, 1);
    words[HEIGHT] -= 1;
    Some(words)
}

/// With identifiers that are no nodes.
fn height_one_more(random: &mut Random) -> Option<Vec<i32>> {
    let mut words = if random.coin() { leaf_root(random, 2) } else { tree(random, 1) };
    for at in reading::cell_places(&words) {
        words[at + cell::ID] = words[at + cell::ID].saturating_add(200);
    }
    words[HEIGHT] += 1;
    Some(words)
}

fn empty_and_no_leaf(random: &mut Random) -> Option<Vec<i32>> {
    let capacity = random.one_of(&CAPACITIES);
    let mut words = draw_with(random, capacity, 0, None).words;
    words[HEIGHT] = random.one_of(&[1, 100, 1_000_000, i32::MAX]);
    Some(words)
}

fn two_in_a_leaf(random: &mut Random) -> Option<Vec<i32>> {
    let mut words = tree(random, 1);
    let mut leaves = reading::leaves(&words);
    leaves.retain(|&leaf| reading::count(&words, leaf) == FEWEST);
    let leaf = one(random, &leaves)?;
    words[node_at(leaf)] = 2;
    rework(&mut words);
    Some(words)
}

fn two_in_an_inner_node(random: &mut Random) -> Option<Vec<i32>> {
    let mut words = tree(random, 2);
    let mut nodes: Vec<Reached> = reading::inners(&words).iter().map(|inner| inner.child).collect();
    nodes.retain(|child| child.height > 0 && reading::count(&words, child.node) == FEWEST);
    let node = one(random, &nodes)?;
    let dropped = reading::children(&words, node)[2];
    free_subtree(&mut words, dropped.child);
    words[node_at(node.node)] = 2;
    rework(&mut words);
    Some(words)
}

fn inner_root_cut(random: &mut Random, left: usize) -> Option<Vec<i32>> {
    let mut words = tree(random, 1);
    let root = reading::root(&words);
    for dropped in &reading::children(&words, root)[left..] {
        free_subtree(&mut words, dropped.child);
    }
    words[node_at(root.node)] = left as i32;
    Some(words)
}

/// The ninth entry would stand in the words of the next node: in the count and in words that no
/// entry has. They can be a cell in all its ranges, and the entries above cover it.
fn nine_in_a_leaf(random: &mut Random) -> Option<Vec<i32>> {
    let leaf_count = random.between(2, 6) as usize;
    let mut words = draw_with(random, 64, 8 * leaf_count, Some(1)).words;
    let mut leaves = reading::leaves(&words);
    let ids: Vec<i32> = reading::cells(&words).iter().map(|cell| cell.id).collect();
    leaves.retain(|&leaf| {
        let full = reading::count(&words, leaf) == FULL;
        let next = words.get(node_at(leaf + 1)).copied().unwrap_or(0);
        full && leaf + 1 < nodes_for(64) && next > 0 && !ids.contains(&next)
    });
    let leaf = one(random, &leaves)?;
    let at = entry_at(leaf, FULL);
    let cell = Cell {
        id: words[at],
        x: random.between(-KEPT, KEPT),
        vx: random.between(-VELOCITY, VELOCITY),
        y: random.between(-KEPT, KEPT),
        vy: random.between(-VELOCITY, VELOCITY),
        expiry: random.between(0, MINUTE),
    };
    put_cell(&mut words, at, &cell);
    words[node_at(leaf)] = 9;
    rework(&mut words);
    Some(words)
}

fn count_of_inner(random: &mut Random, count: i32) -> Option<Vec<i32>> {
    let mut words = tree(random, 1);
    let owner = any_inner(random, &words)?.owner;
    words[node_at(owner.node)] = count;
    Some(words)
}

fn leaf_root_count(random: &mut Random, count: i32) -> Option<Vec<i32>> {
    let mut words = leaf_root(random, 0);
    let root = reading::root(&words).node;
    words[node_at(root)] = count;
    Some(words)
}

fn count_below_root(random: &mut Random, count: i32) -> Option<Vec<i32>> {
    let mut words = tree(random, 1);
    let child = any_inner(random, &words)?.child;
    free_subtree(&mut words, child);
    words[node_at(child.node)] = count;
    Some(words)
}

/// The entry is doubled in its node, in place of another one whose nodes are made free.
fn child_twice(random: &mut Random) -> Option<Vec<i32>> {
    let mut words = tree(random, 1);
    let owner = any_inner(random, &words)?.owner;
    let mut siblings = reading::children(&words, owner);
    random.shuffle(&mut siblings);
    free_subtree(&mut words, siblings[1].child);
    words.copy_within(siblings[0].at..siblings[0].at + ENTRY, siblings[1].at);
    rework(&mut words);
    Some(words)
}

fn child_of_two(random: &mut Random) -> Option<Vec<i32>> {
    let mut words = tree(random, 2);
    let (to, from) = (any_inner(random, &words)?, any_inner(random, &words)?);
    let under_each_other = |a: &Inner, b: &Inner| {
        reading::nodes_from(&words, a.child).iter().any(|reached| reached.node == b.owner.node)
    };
    if to.owner.node == from.owner.node
        || to.child.height != from.child.height
        || under_each_other(&to, &from)
        || under_each_other(&from, &to)
    {
        return None;
    }
    free_subtree(&mut words, to.child);
    words.copy_within(from.at..from.at + ENTRY, to.at);
    rework(&mut words);
    Some(words)
}

fn root_as_child(random: &mut Random) -> Option<Vec<i32>> {
    let mut words = tree(random, 1);
    let inner = any_inner(random, &words)?;
    words[inner.at + inner::CHILD] = words[ROOT];
    Some(words)
}

/// As many levels as there are numbers: a walk that only counts them down takes for ever.
fn root_as_child_for_ever(random: &mut Random) -> Option<Vec<i32>> {
    let mut words = root_as_child(random)?;
    words[HEIGHT] = i32::MAX;
    Some(words)
}

/// Every entry is worked out rightly, and there are few nodes: but there are eight times as many
/// ways to a node as to the one above it.
fn chain(random: &mut Random) -> Option<Vec<i32>> {
    let capacity = random.one_of(&CAPACITIES).max(4);
    let mut words = draw_with(random, capacity, FEWEST, Some(0)).words;
    let clock = words[CLOCK];
    let free = reading::free_nodes(&words);
    for (height, &node) in free.iter().enumerate() {
        for place in 0..FULL {
            let at = entry_at(node, place);
            words[at + inner::CHILD] = words[ROOT];
            words[at + inner::STAMP] = clock;
            work_out(&mut words, at, height);
        }
        words[node_at(node)] = FULL as i32;
        words[ROOT] = node as i32;
    }
    words[HEIGHT] = free.len() as i32;
    Some(words)
}

fn child_past_the_last(random: &mut Random) -> Option<Vec<i32>> {
    let mut words = tree(random, 1);
    let past = with_room_past_the_last(random, &mut words);
    let mut leaves = reading::inners(&words);
    leaves.retain(|inner| inner.child.height == 0);
    let inner = one(random, &leaves)?;
    move_node(&mut words, inner.child.node, past);
    words[inner.at + inner::CHILD] = past as i32;
    Some(words)
}

fn child_is(random: &mut Random, number: i32) -> Option<Vec<i32>> {
    let mut words = tree(random, 1);
    let inner = any_inner(random, &words)?;
    free_subtree(&mut words, inner.child);
    words[inner.at + inner::CHILD] = number;
    Some(words)
}

fn unreached_with_count(random: &mut Random) -> Option<Vec<i32>> {
    let mut words = any(random);
    let node = one(random, &reading::free_nodes(&words))?;
    words[node_at(node)] = random.one_of(&[1, 3, 8, 9, -1, i32::MIN, i32::MAX, 1 << 16]);
    Some(words)
}

fn any_cell(random: &mut Random, words: &[i32]) -> Option<usize> {
    one(random, &reading::cell_places(words))
}

/// One of the words of some cell is set to one of the values, and all above is worked out again.
fn cell_word(random: &mut Random, which: &[usize], values: &[i32]) -> Option<Vec<i32>> {
    let mut words = any(random);
    let at = any_cell(random, &words)?;
    words[at + one(random, which)?] = random.one_of(values);
    rework(&mut words);
    Some(words)
}

fn twice(random: &mut Random, in_one_leaf: bool) -> Option<Vec<i32>> {
    let mut words = if in_one_leaf { any(random) } else { tree(random, 1) };
    let (from, to) = (any_cell(random, &words)?, any_cell(random, &words)?);
    let same_leaf = (from - HEADER) / NODE == (to - HEADER) / NODE;
    if from == to || same_leaf != in_one_leaf {
        return None;
    }
    words[to + cell::ID] = words[from + cell::ID];
    Some(words)
}

fn one_too_many(random: &mut Random) -> Option<Vec<i32>> {
    let capacity = random.one_of(&CAPACITIES);
    Some(draw_with(random, capacity, capacity as usize + 1, None).words)
}

/// A cell is replaced by one that the entry does not cover, which so many levels above it still is
/// as it was.
fn stale(random: &mut Random, levels: usize, replace: Replace) -> Option<Vec<i32>> {
    let mut words = tree(random, levels + 1);
    let mut entries = reading::inners(&words);
    entries.retain(|inner| inner.child.height == levels);
    let entry = one(random, &entries)?;
    let mut beneath = entry.child;
    while beneath.height > 0 {
        beneath = one(random, &reading::children(&words, beneath))?.child;
    }
    let at = entry_at(beneath.node, random.place(reading::count(&words, beneath.node)));
    let axis = random.place(2);
    let [position, velocity] = [[cell::X, cell::VX], [cell::Y, cell::VY]][axis];
    let row = reading::bounds(&words, entry.at).0[axis];
    let stamp = words[entry.at + inner::STAMP];
    (words[at + position], words[at + velocity]) =
        replace(random, row, stamp, words[at + position], words[at + velocity])?;
    if levels > 0 {
        rework_but(&mut words, Some(entry.at));
    }
    Some(words)
}

/// From an entry's row and stamp and the position and velocity of a cell: the new ones.
type Replace = fn(&mut Random, [i32; 4], i32, i32, i32) -> Option<(i32, i32)>;

fn faster(random: &mut Random, row: [i32; 4], _: i32, position: i32, _: i32) -> Option<(i32, i32)> {
    let fast = row[inner::FAST];
    (fast < VELOCITY).then(|| (position, random.between(fast + 1, VELOCITY)))
}

/// One past the entry's high edge, at its stamp.
fn one_farther(_: &mut Random, row: [i32; 4], stamp: i32, _: i32, velocity: i32) -> Option<(i32, i32)> {
    let position = row[inner::HIGH] + (row[inner::FAST] - velocity) * stamp + 1;
    (position <= KEPT).then_some((position, velocity))
}

/// What students write: edges worked out at a minute and kept as if they were at minute 0.
fn edges_kept_as_at(random: &mut Random, minute: fn(&[i32], usize) -> i32) -> Option<Vec<i32>> {
    let mut words = tree(random, 1);
    let entry = any_inner(random, &words)?;
    let minute = minute(&words, entry.at);
    let before = words.clone();
    for row in inner::ROWS {
        let row = entry.at + row;
        words[row + inner::LOW] += words[row + inner::SLOW] * minute;
        words[row + inner::HIGH] += words[row + inner::FAST] * minute;
    }
    if words == before {
        return None;
    }
    rework_but(&mut words, Some(entry.at));
    Some(words)
}

/// Edges as they would be at the clock, under the stamp of the time before.
fn stamp_left_behind(random: &mut Random) -> Option<Vec<i32>> {
    let mut words = tree(random, 1);
    let entry = any_inner(random, &words)?;
    let before = words.clone();
    let stamp = words[entry.at + inner::STAMP];
    words[entry.at + inner::STAMP] = words[CLOCK];
    work_out(&mut words, entry.at, entry.child.height);
    words[entry.at + inner::STAMP] = stamp;
    if words == before {
        return None;
    }
    rework_but(&mut words, Some(entry.at));
    Some(words)
}

fn changed_entry(random: &mut Random, change: fn(&mut Random, &mut [i32])) -> Option<Vec<i32>> {
    let mut words = tree(random, 1);
    let entry = any_inner(random, &words)?;
    let before = words.clone();
    change(random, &mut words[entry.at..entry.at + ENTRY]);
    if words == before {
        return None;
    }
    rework_but(&mut words, Some(entry.at));
    Some(words)
}

fn edge_one_off(random: &mut Random) -> Option<Vec<i32>> {
    changed_entry(random, |random, entry| {
        entry[inner::ROWS[random.place(2)] + random.place(2)] += random.sign();
    })
}

fn edges_exchanged(random: &mut Random) -> Option<Vec<i32>> {
    changed_entry(random, |random, entry| {
        let edge = random.place(2);
        entry.swap(inner::ROWS[0] + edge, inner::ROWS[1] + edge);
    })
}

fn edge_out_of_range(random: &mut Random) -> Option<Vec<i32>> {
    let mut words = tree(random, 1);
    let mut entries = reading::inners(&words);
    let root = words[ROOT] as usize;
    entries.retain(|inner| inner.owner.node == root);
    let entry = one(random, &entries)?;
    let edge = entry.at + inner::ROWS[random.place(2)] + random.place(2);
    words[edge] = random.one_of(&[KEPT_EDGE + 1, -KEPT_EDGE - 1, i32::MAX, i32::MIN]);
    Some(words)
}

/// The edge is shifted as well, so that at the stamp minute it is right.
fn velocity_one_off(random: &mut Random) -> Option<Vec<i32>> {
    changed_entry(random, |random, entry| {
        let row = inner::ROWS[random.place(2)];
        let side = random.place(2);
        let by = random.sign();
        entry[row + inner::SLOW + side] += by;
        entry[row + inner::LOW + side] -= by * entry[inner::STAMP];
    })
}

fn expiry_one_off(random: &mut Random) -> Option<Vec<i32>> {
    changed_entry(random, |random, entry| entry[inner::UNTIL] += random.sign())
}

/// With the stamps above it as late, and all worked out at them.
fn stamp_after_clock(random: &mut Random) -> Option<Vec<i32>> {
    let mut words = tree(random, 1);
    let entry = any_inner(random, &words)?;
    let late = words[CLOCK] + 1;
    for inner in reading::inners(&words) {
        let below = reading::inners_from(&words, inner.child);
        if inner.at == entry.at || below.iter().any(|lower| lower.at == entry.at) {
            words[inner.at + inner::STAMP] = late;
        }
    }
    rework(&mut words);
    Some(words)
}

fn clock_before_stamp(random: &mut Random) -> Option<Vec<i32>> {
    let mut words = tree(random, 1);
    let latest = reading::inners(&words).iter().map(|inner| words[inner.at + inner::STAMP]).max()?;
    words[CLOCK] = latest - 1;
    (latest > 0).then_some(words)
}

fn stamp_before_beneath(random: &mut Random) -> Option<Vec<i32>> {
    let mut words = tree(random, 2);
    let mut entries = reading::inners(&words);
    entries.retain(|inner| inner.child.height > 0);
    let entry = one(random, &entries)?;
    let beneath = reading::children(&words, entry.child);
    let latest = beneath.iter().map(|inner| words[inner.at + inner::STAMP]).max()?;
    words[entry.at + inner::STAMP] = latest - 1;
    rework(&mut words);
    (latest > 0).then_some(words)
}

fn stamp_below_zero(random: &mut Random) -> Option<Vec<i32>> {
    let mut words = tree(random, 1);
    let mut entries = reading::inners(&words);
    entries.retain(|inner| inner.child.height == 0);
    let entry = one(random, &entries)?;
    words[entry.at + inner::STAMP] = -random.between(1, 30);
    rework(&mut words);
    Some(words)
}
