//! Where everything stands in a table's words.

pub const CAPACITY: usize = 0;
pub const CLOCK: usize = 1;
pub const ROOT: usize = 2;
pub const HEIGHT: usize = 3;

pub const HEADER: usize = 16;
pub const NODE: usize = 96;

/// The words of a node before its entries; the first of them is the count.
pub const OWN: usize = 8;
pub const ENTRY: usize = 11;

/// The most entries of a node.
pub const FULL: usize = 8;

/// The fewest entries of a node other than the root.
pub const FEWEST: usize = 3;

/// The fewest entries of a root that is an inner node.
pub const FEWEST_IN_ROOT: usize = 2;

/// The words of a leaf entry.
pub mod cell {
    pub const ID: usize = 0;
    pub const X: usize = 1;
    pub const VX: usize = 2;
    pub const Y: usize = 3;
    pub const VY: usize = 4;
    pub const EXPIRY: usize = 5;
    pub const READ: usize = 6;
}

/// The words of an inner entry. A row is low and high edge at minute 0, low and high velocity.
pub mod inner {
    pub const CHILD: usize = 0;
    pub const ROWS: [usize; 2] = [1, 5];
    pub const LOW: usize = 0;
    pub const HIGH: usize = 1;
    pub const SLOW: usize = 2;
    pub const FAST: usize = 3;
    pub const UNTIL: usize = 9;
    pub const STAMP: usize = 10;
}

/// The most cells for which there may be a table.
pub const LARGEST: i32 = 256;

/// Kept positions lie as far as this from 0.
pub const KEPT: i32 = 837_280;

/// Kept edges lie as far as this from 0.
pub const KEPT_EDGE: i32 = 2_311_840;

pub fn nodes_for(capacity: i32) -> usize {
    capacity as usize / 2 + 1
}

pub fn words_for(capacity: i32) -> usize {
    HEADER + NODE * nodes_for(capacity)
}

pub fn node_at(node: usize) -> usize {
    HEADER + NODE * node
}

pub fn entry_at(node: usize, place: usize) -> usize {
    node_at(node) + OWN + ENTRY * place
}
