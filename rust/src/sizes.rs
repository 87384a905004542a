//! How much memory a table, a sheet and the text of tracks need.

/// The most cells that a table can be for.
pub const MOST_CELLS: usize = 256;

/// The version of the layout of a table's words. Words that were kept from another version of this crate are
/// a table for this one only if the two agree here. In 0.2.0, which had this layout too, the expiry itself was
/// still part of a cell's life: a cell whose expiry is the clock of such words counts as expired now.
pub const LAYOUT: i32 = 1;

/// The words that a table for so many cells needs, from 1 to 256: 16 + 96 × (cells / 2 rounded down + 1). It
/// can be the length of an array.
///
/// ```
/// use bradawlet::{words_for, Table};
///
/// let mut words = [0; words_for(40)];
/// assert_eq!(words.len(), 2032);
/// assert!(Table::fresh(&mut words, 40).is_ok());
/// assert!(Table::over(&words).is_ok());
/// ```
pub const fn words_for(cells: usize) -> usize {
    (cells / 2 + 1).saturating_mul(96).saturating_add(16)
}

/// The bytes of a sheet with so many cells, from 0 to 256: 16 + 24 × cells.
///
/// ```
/// assert_eq!(bradawlet::sheet_length(0), 16);
/// assert_eq!(bradawlet::sheet_length(bradawlet::MOST_CELLS), 6160);
/// ```
pub const fn sheet_length(cells: usize) -> usize {
    cells.saturating_mul(24).saturating_add(16)
}

/// The bytes of the longest line that a cell's track gives, its line feed included.
///
/// ```
/// let longest = "LINESTRING M (-13492800 -13492800 1000, -15745600 -15745600 1440)\n";
/// assert_eq!(longest.len(), bradawlet::LONGEST_TRACK);
/// ```
pub const LONGEST_TRACK: usize = 66;

/// The bytes that are enough for the tracks of so many cells, from 0 to 256: 66 × cells.
///
/// ```
/// assert_eq!(bradawlet::longest_tracks(bradawlet::MOST_CELLS), 16_896);
/// ```
pub const fn longest_tracks(cells: usize) -> usize {
    cells.saturating_mul(LONGEST_TRACK)
}
