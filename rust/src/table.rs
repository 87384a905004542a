//! Tables over words that are borrowed or owned.

use crate::asked::{Hits, Moving, Report, Window};
use crate::calls::{self, Answer};
use crate::cells::Cells;
use crate::refusal::{accepted, count, NotListed, Refusal};
use crate::sizes::{longest_tracks, sheet_length, words_for, MOST_CELLS};
use crate::tracks;
use std::fmt;

/// A table of cells in words `W`: `&mut [i32]` that are lent, an owned `Vec<i32>` or `Box<[i32]>`, an array;
/// for reading alone `&[i32]` is enough.
///
/// Arrays are copied when they are handed over: a table made of `array` stands in a copy, and one made of
/// `&mut array` in the array itself.
///
/// ```
/// use bradawlet::{words_for, Refusal, Report, Table};
/// use std::sync::Mutex;
///
/// static WORDS: Mutex<[i32; words_for(40)]> = Mutex::new([0; words_for(40)]);
///
/// fn main() -> Result<(), Refusal> {
///     let mut words = WORDS.lock().unwrap();
///     let mut table = Table::fresh(&mut words[..], 40)?;
///     table.report(&Report { id: 7, x: 100, y: 200, vx: 5, vy: -3, minute: 10, expiry: 40 })?;
///     // The words are the table still, for whoever takes them next.
///     assert_eq!(Table::over(&words[..])?.cells()?.count(), 1);
///     Ok(())
/// }
/// ```
///
/// All that a table knows stands in its words. [`into_words`](Table::into_words) hands them out, and
/// [`over`](Table::over) takes them for a table again, after a test.
///
/// Words past those that the capacity needs are never touched. A refused call changes nothing.
///
/// Every method of a table tests its words anew, and lists [`NotSound`](Refusal::NotSound) first among its
/// refusals. It comes up only if `W` gives other words than it gave before: slices, vectors, boxes and arrays
/// never do.
///
/// Two tables with the same clock and live cells answer alike though their words may differ, so tables are
/// not compared by `==`: compare their sheets.
#[derive(Clone)]
pub struct Table<W> {
    words: W,
}

impl Table<Vec<i32>> {
    /// A fresh table with words of its own: clock 0 and no cells.
    ///
    /// # Errors
    ///
    /// [`BadCapacity`](Refusal::BadCapacity) if `cells` is not from 1 to 256.
    ///
    /// ```
    /// use bradawlet::{Refusal, Table};
    ///
    /// assert_eq!(Table::new(256)?.cells()?.count(), 0);
    /// assert_eq!(Table::new(257).unwrap_err(), Refusal::BadCapacity);
    /// # Ok::<(), Refusal>(())
    /// ```
    pub fn new(cells: usize) -> Result<Self, Refusal> {
        Table::fresh(own_words(cells), cells)
    }

    /// A table with words of its own, for so many cells, that holds a sheet's cells and has its clock.
    ///
    /// # Errors
    ///
    /// The first of [`BadCapacity`](Refusal::BadCapacity), [`BadHeader`](Refusal::BadHeader),
    /// [`Full`](Refusal::Full) if the sheet has more than `cells`, and [`BadRecord`](Refusal::BadRecord).
    ///
    /// ```
    /// use bradawlet::{Refusal, Report, Table};
    ///
    /// let mut table = Table::new(8)?;
    /// table.report(&Report { id: 7, x: 100, y: 200, vx: 5, vy: -3, minute: 10, expiry: 40 })?;
    /// let sheet = table.to_sheet()?;
    /// assert_eq!(Table::new_from_sheet(256, &sheet)?.to_sheet()?, sheet);
    /// # Ok::<(), Refusal>(())
    /// ```
    pub fn new_from_sheet(cells: usize, bytes: &[u8]) -> Result<Self, Refusal> {
        Table::from_sheet(own_words(cells), cells, bytes)
    }
}

/// What only reads the words.
impl<W: AsRef<[i32]>> Table<W> {
    /// The table that these words are. Nothing is changed in them.
    ///
    /// # Errors
    ///
    /// [`NotSound`](Refusal::NotSound) if the words are not a sound table.
    ///
    /// ```
    /// use bradawlet::{Refusal, Table};
    ///
    /// let words = Table::new(1)?.into_words();
    /// assert_eq!(Table::over(&words[..])?.cells()?.count(), 0);
    /// assert_eq!(Table::over(&words[1..]).unwrap_err(), Refusal::NotSound);
    /// # Ok::<(), Refusal>(())
    /// ```
    pub fn over(words: W) -> Result<Self, Refusal> {
        accepted(calls::open(words.as_ref())).map(|()| Table { words })
    }

    /// The table's words, those past its need included.
    ///
    /// ```
    /// use bradawlet::{words_for, Table};
    ///
    /// assert_eq!(Table::new(40)?.words().len(), words_for(40));
    /// # Ok::<(), bradawlet::Refusal>(())
    /// ```
    pub fn words(&self) -> &[i32] {
        self.words.as_ref()
    }

    /// The cells that meet a window, in a list of its own, and how many nodes were opened to find them.
    ///
    /// A cell meets the window when at one instant, from start to end and before the cell's expiry, x and y
    /// both lie within the rectangle. Fractions of a minute count, and so do the edges, the start and the
    /// end, but the expiry does not.
    ///
    /// # Errors
    ///
    /// The first of [`NotSound`](Refusal::NotSound), [`OutOfRange`](Refusal::OutOfRange),
    /// [`BeforeClock`](Refusal::BeforeClock) and [`Backward`](Refusal::Backward).
    ///
    /// ```
    /// use bradawlet::{Rectangle, Refusal, Report, Table, Window};
    ///
    /// let mut table = Table::new(8)?;
    /// table.report(&Report { id: 9, x: 0, y: 0, vx: 3, vy: 3, minute: 10, expiry: 30 })?;
    /// let point = Rectangle { xlow: 1, xhigh: 1, ylow: 1, yhigh: 1 };
    /// let hits = table.window(&Window { start: 10, end: 11, rectangle: point })?;
    /// assert_eq!((hits.ids, hits.opened), (vec![9], 1));
    /// // A window that goes backward has no hits, and no empty list either.
    /// let backward = table.window(&Window { start: 11, end: 10, rectangle: point });
    /// assert_eq!(backward, Err(Refusal::Backward));
    /// # Ok::<(), Refusal>(())
    /// ```
    pub fn window(&self, window: &Window) -> Result<Hits<Vec<i32>>, Refusal> {
        own_list(|list| self.window_into(window, list))
    }

    /// The cells that meet a rectangle that moves, in a list of its own, and how many nodes were opened to
    /// find them.
    ///
    /// # Errors
    ///
    /// The first of [`NotSound`](Refusal::NotSound), [`OutOfRange`](Refusal::OutOfRange),
    /// [`BeforeClock`](Refusal::BeforeClock) and [`Backward`](Refusal::Backward), which is given for a start
    /// equal to the end too.
    ///
    /// ```
    /// use bradawlet::{Moving, Rectangle, Refusal, Report, Table};
    ///
    /// let mut table = Table::new(8)?;
    /// table.report(&Report { id: 1, x: 3, y: 0, vx: 1, vy: 0, minute: 0, expiry: 40 })?;
    /// table.report(&Report { id: 2, x: 3, y: 0, vx: 2, vy: 0, minute: 0, expiry: 40 })?;
    /// let first = Rectangle { xlow: 0, xhigh: 2, ylow: 0, yhigh: 0 };
    /// let last = Rectangle { xlow: 20, xhigh: 22, ylow: 0, yhigh: 0 };
    /// assert_eq!(table.moving(&Moving { start: 0, end: 10, first, last })?.ids, [1]);
    /// # Ok::<(), Refusal>(())
    /// ```
    pub fn moving(&self, moving: &Moving) -> Result<Hits<Vec<i32>>, Refusal> {
        own_list(|list| self.moving_into(moving, list))
    }

    /// As [`window`](Table::window), into the first places of a lent list: nothing is allocated. The other
    /// places are not touched, and a refusal touches none.
    ///
    /// # Errors
    ///
    /// As [`window`](Table::window), and last [`ShortList`](Refusal::ShortList), which comes with the count
    /// of hits.
    ///
    /// ```
    /// use bradawlet::{Rectangle, Refusal, Report, Table, Window, MOST_CELLS};
    ///
    /// let mut table = Table::new(8)?;
    /// table.report(&Report { id: 9, x: 0, y: 0, vx: 3, vy: 3, minute: 10, expiry: 30 })?;
    /// let rectangle = Rectangle { xlow: -500, xhigh: 500, ylow: -500, yhigh: 500 };
    /// let mut list = [0; MOST_CELLS];
    /// let hits = table.window_into(&Window { start: 12, end: 40, rectangle }, &mut list)?;
    /// assert_eq!(hits.ids, [9]);
    /// # Ok::<(), Refusal>(())
    /// ```
    pub fn window_into<'l>(
        &self,
        window: &Window,
        list: &'l mut [i32],
    ) -> Result<Hits<&'l [i32]>, NotListed> {
        let answer = calls::window(self.words(), list, window);
        listed(&answer, list)
    }

    /// As [`moving`](Table::moving), into the first places of a lent list: nothing is allocated. The other
    /// places are not touched, and a refusal touches none.
    ///
    /// # Errors
    ///
    /// As [`moving`](Table::moving), and last [`ShortList`](Refusal::ShortList), which comes with the count
    /// of hits.
    ///
    /// ```
    /// use bradawlet::{Moving, Rectangle, Refusal, Report, Table};
    ///
    /// let mut table = Table::new(8)?;
    /// table.report(&Report { id: 1, x: 3, y: 0, vx: 1, vy: 0, minute: 0, expiry: 40 })?;
    /// let first = Rectangle { xlow: 0, xhigh: 2, ylow: 0, yhigh: 0 };
    /// let last = Rectangle { xlow: 20, xhigh: 22, ylow: 0, yhigh: 0 };
    /// let query = Moving { start: 0, end: 10, first, last };
    /// assert_eq!(table.moving_into(&query, &mut []).unwrap_err().hits, 1);
    /// assert_eq!(table.moving_into(&query, &mut [0; 3])?.ids, [1]);
    /// # Ok::<(), Refusal>(())
    /// ```
    pub fn moving_into<'l>(
        &self,
        moving: &Moving,
        list: &'l mut [i32],
    ) -> Result<Hits<&'l [i32]>, NotListed> {
        let answer = calls::moving(self.words(), list, moving);
        listed(&answer, list)
    }

    /// The live cells, those whose expiry is after the clock, by rising identifier.
    ///
    /// # Errors
    ///
    /// [`NotSound`](Refusal::NotSound).
    ///
    /// ```
    /// use bradawlet::{Report, Table};
    ///
    /// let mut table = Table::new(8)?;
    /// table.report(&Report { id: 9, x: 0, y: 0, vx: 3, vy: 3, minute: 10, expiry: 30 })?;
    /// table.report(&Report { id: 7, x: 100, y: 200, vx: 5, vy: -3, minute: 10, expiry: 40 })?;
    /// let ids: Vec<i32> = table.cells()?.map(|cell| cell.id).collect();
    /// assert_eq!(ids, [7, 9]);
    /// # Ok::<(), bradawlet::Refusal>(())
    /// ```
    pub fn cells(&self) -> Result<Cells<'_>, Refusal> {
        self.cells_after(0)
    }

    /// The live cells whose identifier is above `last`, which may be any number, by rising identifier.
    ///
    /// # Errors
    ///
    /// [`NotSound`](Refusal::NotSound).
    ///
    /// ```
    /// use bradawlet::{Report, Table};
    ///
    /// let mut table = Table::new(8)?;
    /// table.report(&Report { id: 9, x: 0, y: 0, vx: 3, vy: 3, minute: 10, expiry: 30 })?;
    /// assert_eq!(table.cells_after(8)?.count(), 1);
    /// assert_eq!(table.cells_after(9)?.count(), 0);
    /// # Ok::<(), bradawlet::Refusal>(())
    /// ```
    pub fn cells_after(&self, last: i32) -> Result<Cells<'_>, Refusal> {
        Cells::opened(self.words(), last)
    }

    /// The table's sheet: its clock and its live cells as bytes. The clock is a little-endian word at byte 8.
    ///
    /// # Errors
    ///
    /// [`NotSound`](Refusal::NotSound).
    ///
    /// ```
    /// let sheet = bradawlet::Table::new(8)?.to_sheet()?;
    /// assert_eq!(sheet, [0, 0, 0, 0, 16, 0, 0, 0, 0, 0, 0, 0, 16, 0, 0, 0]);
    /// let clock = i32::from_le_bytes([sheet[8], sheet[9], sheet[10], sheet[11]]);
    /// assert_eq!(clock, 0);
    /// # Ok::<(), bradawlet::Refusal>(())
    /// ```
    pub fn to_sheet(&self) -> Result<Vec<u8>, Refusal> {
        let mut bytes = vec![0; sheet_length(MOST_CELLS)];
        let total = self.write_sheet(&mut bytes)?;
        bytes.truncate(total);
        Ok(bytes)
    }

    /// Writes the table's sheet to the first of the lent bytes and gives its length: nothing is allocated.
    /// The other bytes are not touched, and a refusal touches none.
    ///
    /// # Errors
    ///
    /// The first of [`NotSound`](Refusal::NotSound) and [`ShortBytes`](Refusal::ShortBytes).
    /// [`sheet_length`] of the capacity is always enough.
    ///
    /// ```
    /// use bradawlet::{sheet_length, Refusal, Table};
    ///
    /// let table = Table::new(8)?;
    /// assert_eq!(table.write_sheet(&mut [0; sheet_length(8)]), Ok(16));
    /// assert_eq!(table.write_sheet(&mut [0; 15]), Err(Refusal::ShortBytes));
    /// # Ok::<(), Refusal>(())
    /// ```
    pub fn write_sheet(&self, bytes: &mut [u8]) -> Result<usize, Refusal> {
        let (number, total) = calls::write(self.words(), bytes);
        accepted(number).map(|()| count(total))
    }

    /// The tracks of the live cells as well-known text, for map programs: a line for each, by rising
    /// identifier as [`cells`](Table::cells) has them. `LINESTRING M (x y m, x y m)` is where the cell is at
    /// the clock and where its track is at its expiry, in whole metres, each with its minute. Each line ends
    /// in a line feed, and no line says which cell it is of.
    ///
    /// It is a `String`, not bytes as a sheet is, because it is text to be printed, split into lines and
    /// stored, and all of it is ASCII.
    ///
    /// # Errors
    ///
    /// [`NotSound`](Refusal::NotSound).
    ///
    /// ```
    /// use bradawlet::{read_track, Report, Table};
    ///
    /// let mut table = Table::new(8)?;
    /// table.report(&Report { id: 7, x: 100, y: 200, vx: 5, vy: -3, minute: 10, expiry: 40 })?;
    /// table.report(&Report { id: 9, x: 0, y: 0, vx: 3, vy: 3, minute: 10, expiry: 30 })?;
    /// let text = table.to_tracks()?;
    /// assert_eq!(text, "LINESTRING M (1000 2000 10, 2500 1100 40)\nLINESTRING M (0 0 10, 600 600 30)\n");
    /// // Each line is a cell again, with the identifier that stands beside it.
    /// for (cell, line) in table.cells()?.zip(text.split_inclusive('\n')) {
    ///     assert_eq!(read_track(cell.id, line), Ok(cell));
    /// }
    /// # Ok::<(), bradawlet::Refusal>(())
    /// ```
    pub fn to_tracks(&self) -> Result<String, Refusal> {
        let mut bytes = vec![0; longest_tracks(MOST_CELLS)];
        let total = self.write_tracks(&mut bytes)?;
        bytes.truncate(total);
        Ok(tracks::text(bytes))
    }

    /// Writes the text of [`to_tracks`](Table::to_tracks) to the first of the lent bytes and gives its length:
    /// nothing is allocated. The other bytes are not touched, and a refusal touches none.
    ///
    /// # Errors
    ///
    /// The first of [`NotSound`](Refusal::NotSound) and [`ShortBytes`](Refusal::ShortBytes), which is given
    /// if the whole text is longer than the bytes. [`longest_tracks`] of the capacity is always enough.
    ///
    /// ```
    /// use bradawlet::{longest_tracks, Refusal, Report, Table};
    ///
    /// let mut table = Table::new(8)?;
    /// assert_eq!(table.write_tracks(&mut []), Ok(0));
    /// table.report(&Report { id: 9, x: 0, y: 0, vx: 3, vy: 3, minute: 10, expiry: 30 })?;
    /// let mut bytes = [0; longest_tracks(8)];
    /// let total = table.write_tracks(&mut bytes)?;
    /// assert_eq!(&bytes[..total], b"LINESTRING M (0 0 10, 600 600 30)\n");
    /// assert_eq!(table.write_tracks(&mut bytes[..total - 1]), Err(Refusal::ShortBytes));
    /// # Ok::<(), Refusal>(())
    /// ```
    pub fn write_tracks(&self, bytes: &mut [u8]) -> Result<usize, Refusal> {
        let (number, total) = calls::tracks(self.words(), bytes);
        accepted(number).map(|()| count(total))
    }
}

/// What writes to the words.
impl<W: AsRef<[i32]> + AsMut<[i32]>> Table<W> {
    /// Makes a fresh table of any words: clock 0 and no cells. What the words held is lost.
    ///
    /// # Errors
    ///
    /// The first of [`BadCapacity`](Refusal::BadCapacity) if `cells` is not from 1 to 256, and
    /// [`ShortTable`](Refusal::ShortTable) if there are fewer than [`words_for`]`(cells)` words.
    ///
    /// ```
    /// use bradawlet::{words_for, Refusal, Table};
    ///
    /// let mut words = [0; words_for(8)];
    /// assert!(Table::fresh(&mut words[..], 8).is_ok());
    /// assert_eq!(Table::fresh(&mut words[1..], 8).unwrap_err(), Refusal::ShortTable);
    /// ```
    pub fn fresh(mut words: W, cells: usize) -> Result<Self, Refusal> {
        accepted(calls::fresh(words.as_mut(), capacity(cells))).map(|()| Table { words })
    }

    /// Makes of any words a table for so many cells that holds a sheet's cells and has its clock. What the
    /// words held is lost.
    ///
    /// # Errors
    ///
    /// The first of [`BadCapacity`](Refusal::BadCapacity), [`ShortTable`](Refusal::ShortTable),
    /// [`BadHeader`](Refusal::BadHeader), [`Full`](Refusal::Full) if the sheet has more than `cells`, and
    /// [`BadRecord`](Refusal::BadRecord).
    ///
    /// ```
    /// use bradawlet::{words_for, Refusal, Table};
    ///
    /// let sheet = Table::new(8)?.to_sheet()?;
    /// let mut words = [0; words_for(1)];
    /// assert_eq!(Table::from_sheet(&mut words, 1, &sheet)?.to_sheet()?, sheet);
    /// assert_eq!(Table::from_sheet(&mut words, 1, &sheet[1..]).unwrap_err(), Refusal::BadHeader);
    /// # Ok::<(), Refusal>(())
    /// ```
    pub fn from_sheet(mut words: W, cells: usize, bytes: &[u8]) -> Result<Self, Refusal> {
        accepted(calls::read(words.as_mut(), capacity(cells), bytes)).map(|()| Table { words })
    }

    /// Puts a cell in, in the place of a live one of the same identifier, and sets the clock to the report's
    /// minute. Cells whose expiry is not after it have expired: their room is used again, and nothing finds
    /// them. So a cell and its successor, reported in the very minute of its expiry, are never found
    /// together.
    ///
    /// # Errors
    ///
    /// The first of [`NotSound`](Refusal::NotSound), [`OutOfRange`](Refusal::OutOfRange),
    /// [`BeforeClock`](Refusal::BeforeClock), [`ExpiresFirst`](Refusal::ExpiresFirst) and
    /// [`Full`](Refusal::Full).
    ///
    /// ```
    /// use bradawlet::{Refusal, Report, Table};
    ///
    /// let mut table = Table::new(1)?;
    /// let report = Report { id: 7, x: 100, y: 200, vx: 5, vy: -3, minute: 10, expiry: 40 };
    /// table.report(&report)?;
    /// assert_eq!(table.report(&Report { id: 8, ..report }), Err(Refusal::Full));
    /// assert_eq!(table.report(&Report { minute: 9, ..report }), Err(Refusal::BeforeClock));
    /// assert_eq!(table.report(&Report { expiry: 10, ..report }), Err(Refusal::ExpiresFirst));
    /// // Cell 7 expires at 40, and there is room for its successor.
    /// table.report(&Report { id: 8, x: 250, y: 110, minute: 40, expiry: 70, ..report })?;
    /// assert_eq!(table.cells()?.map(|cell| cell.id).collect::<Vec<i32>>(), [8]);
    /// # Ok::<(), Refusal>(())
    /// ```
    pub fn report(&mut self, report: &Report) -> Result<(), Refusal> {
        accepted(calls::report(self.words.as_mut(), report))
    }

    /// Takes a live cell out, and sets the clock to the minute.
    ///
    /// # Errors
    ///
    /// The first of [`NotSound`](Refusal::NotSound), [`OutOfRange`](Refusal::OutOfRange),
    /// [`BeforeClock`](Refusal::BeforeClock) and [`NotLive`](Refusal::NotLive).
    ///
    /// ```
    /// use bradawlet::{Refusal, Report, Table};
    ///
    /// let mut table = Table::new(1)?;
    /// table.report(&Report { id: 7, x: 100, y: 200, vx: 5, vy: -3, minute: 10, expiry: 40 })?;
    /// assert_eq!(table.drop_cell(7, 40), Err(Refusal::NotLive));
    /// assert_eq!(table.drop_cell(7, 12), Ok(()));
    /// # Ok::<(), Refusal>(())
    /// ```
    pub fn drop_cell(&mut self, id: i32, minute: i32) -> Result<(), Refusal> {
        accepted(calls::drop(self.words.as_mut(), id, minute))
    }
}

impl<W> Table<W> {
    /// The words, which are a table still: [`over`](Table::over) takes them again.
    ///
    /// ```
    /// use bradawlet::Table;
    ///
    /// let words = Table::new(8)?.into_words();
    /// assert!(Table::over(words).is_ok());
    /// # Ok::<(), bradawlet::Refusal>(())
    /// ```
    pub fn into_words(self) -> W {
        self.words
    }
}

/// As the other words of a table say nothing to a reader, it shows how many there are.
impl<W: AsRef<[i32]>> fmt::Debug for Table<W> {
    fn fmt(&self, f: &mut fmt::Formatter<'_>) -> fmt::Result {
        f.debug_struct("Table").field("words", &self.words().len()).finish_non_exhaustive()
    }
}

/// No more words than the largest table needs, whatever is asked for: the call refuses a larger capacity.
fn own_words(cells: usize) -> Vec<i32> {
    vec![0; words_for(cells.min(MOST_CELLS))]
}

/// As the calls take it. None that is too large for them becomes one that they accept.
fn capacity(cells: usize) -> i32 {
    i32::try_from(cells).unwrap_or(i32::MAX)
}

fn listed<'l>(answer: &Answer, list: &'l [i32]) -> Result<Hits<&'l [i32]>, NotListed> {
    let hits = count(answer.hits);
    match accepted(answer.number) {
        Ok(()) => Ok(Hits { ids: &list[..hits], opened: count(answer.opened) }),
        Err(refusal) => Err(NotListed { refusal, hits }),
    }
}

/// No table has more cells than this list has places.
fn own_list(
    ask: impl for<'l> FnOnce(&'l mut [i32]) -> Result<Hits<&'l [i32]>, NotListed>,
) -> Result<Hits<Vec<i32>>, Refusal> {
    let mut list = [0; MOST_CELLS];
    let hits = ask(&mut list)?;
    Ok(Hits { ids: hits.ids.to_vec(), opened: hits.opened })
}
