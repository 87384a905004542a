//! What stands in the words of a sound table.

use super::layout::*;
use super::worlds::Cell;

/// A node that is reached from the root.
#[derive(Clone, Copy, Debug)]
pub struct Reached {
    pub node: usize,
    /// 0 for a leaf.
    pub height: usize,
}

/// An inner entry: where its words begin, and its child.
#[derive(Clone, Copy, Debug)]
pub struct Inner {
    pub at: usize,
    pub owner: Reached,
    pub child: Reached,
}

pub fn count(words: &[i32], node: usize) -> usize {
    words[node_at(node)] as usize
}

pub fn root(words: &[i32]) -> Reached {
    Reached { node: words[ROOT] as usize, height: words[HEIGHT] as usize }
}

pub fn children(words: &[i32], owner: Reached) -> Vec<Inner> {
    if owner.height == 0 {
        return Vec::new();
    }
    let inner = |place: usize| {
        let at = entry_at(owner.node, place);
        let child = Reached { node: words[at + inner::CHILD] as usize, height: owner.height - 1 };
        Inner { at, owner, child }
    };
    (0..count(words, owner.node)).map(inner).collect()
}

/// The inner entries from a node downwards, those above before those beneath.
pub fn inners_from(words: &[i32], from: Reached) -> Vec<Inner> {
    let mut all = children(words, from);
    let mut next = 0;
    while next < all.len() {
        all.extend(children(words, all[next].child));
        next += 1;
    }
    all
}

pub fn inners(words: &[i32]) -> Vec<Inner> {
    inners_from(words, root(words))
}

/// The nodes from a node downwards, with that node.
pub fn nodes_from(words: &[i32], from: Reached) -> Vec<Reached> {
    std::iter::once(from).chain(inners_from(words, from).iter().map(|inner| inner.child)).collect()
}

pub fn leaves(words: &[i32]) -> Vec<usize> {
    let nodes = nodes_from(words, root(words));
    nodes.iter().filter(|reached| reached.height == 0).map(|reached| reached.node).collect()
}

/// Where the words of each held cell begin.
pub fn cell_places(words: &[i32]) -> Vec<usize> {
    let places = |leaf: usize| (0..count(words, leaf)).map(move |place| entry_at(leaf, place));
    leaves(words).into_iter().flat_map(places).collect()
}

pub fn cells(words: &[i32]) -> Vec<Cell> {
    cell_places(words).into_iter().map(|at| cell(words, at)).collect()
}

pub fn cell(words: &[i32], at: usize) -> Cell {
    Cell {
        id: words[at + cell::ID],
        x: words[at + cell::X],
        vx: words[at + cell::VX],
        y: words[at + cell::Y],
        vy: words[at + cell::VY],
        expiry: words[at + cell::EXPIRY],
    }
}

/// An inner entry's rows, one an axis, and its greatest expiry.
pub fn bounds(words: &[i32], at: usize) -> ([[i32; 4]; 2], i32) {
    let rows = inner::ROWS.map(|row| [0, 1, 2, 3].map(|number| words[at + row + number]));
    (rows, words[at + inner::UNTIL])
}

/// The nodes that are not reached.
pub fn free_nodes(words: &[i32]) -> Vec<usize> {
    let mut free = vec![true; nodes_for(words[CAPACITY])];
    for reached in nodes_from(words, root(words)) {
        free[reached.node] = false;
    }
    (0..free.len()).filter(|&node| free[node]).collect()
}
