//! The fourteen reasons for which calls are refused.

use std::error::Error;
use std::fmt;

/// Why a call was refused. A refused call has changed nothing that it was lent; what it was given to own,
/// as a vector of words that are no table, is gone: to keep it, lend it.
///
/// Each has the number that the C calls give. Where several reasons hold, a call gives the first of its own;
/// each method lists them in that order.
///
/// ```
/// use bradawlet::{Refusal, Table};
///
/// let refused = Table::new(0).unwrap_err();
/// assert_eq!(refused, Refusal::BadCapacity);
/// assert_eq!(refused.number(), 2);
/// assert_eq!(refused.to_string(), "refused by 2: the capacity is not from 1 to 256");
/// ```
#[derive(Debug, Clone, Copy, PartialEq, Eq, Hash)]
#[repr(i32)]
pub enum Refusal {
    /// The words are not a sound table.
    NotSound = 1,
    /// The table is to be for fewer than 1 or more than 256 cells.
    BadCapacity = 2,
    /// The words are too few for a table of that capacity.
    ShortTable = 3,
    /// An argument is outside its range.
    OutOfRange = 4,
    /// The minute of a report or a drop, or the start of a query, is before the table's clock. Of
    /// [`meets`](crate::meets) and [`meets_moving`](crate::meets_moving): the query starts before the
    /// report's minute.
    BeforeClock = 5,
    /// The report's expiry is not after its minute.
    ExpiresFirst = 6,
    /// The query's end is before its start, a low edge is above its high edge, or a moving query ends at the
    /// minute at which it starts.
    Backward = 7,
    /// The cell that is to be dropped is not live at the drop's minute.
    NotLive = 8,
    /// As many other cells are live at the report's minute as the table is for; or the sheet has more cells
    /// than that.
    Full = 9,
    /// There are more hits than the list has places.
    ShortList = 10,
    /// The sheet's header is wrong, or the bytes are not as many as it says.
    BadHeader = 11,
    /// A record of the sheet is out of range, its expiry is not after the sheet's clock, or the identifiers
    /// do not rise.
    BadRecord = 12,
    /// The bytes are too few for the sheet or for the text.
    ShortBytes = 13,
    /// The line and the identifier give no cell.
    NoTrack = 14,
}

impl Refusal {
    /// Every refusal, by rising number.
    pub const ALL: [Refusal; 14] = [
        Refusal::NotSound,
        Refusal::BadCapacity,
        Refusal::ShortTable,
        Refusal::OutOfRange,
        Refusal::BeforeClock,
        Refusal::ExpiresFirst,
        Refusal::Backward,
        Refusal::NotLive,
        Refusal::Full,
        Refusal::ShortList,
        Refusal::BadHeader,
        Refusal::BadRecord,
        Refusal::ShortBytes,
        Refusal::NoTrack,
    ];

    /// Its number, from 1 to 14.
    ///
    /// ```
    /// assert_eq!(bradawlet::Refusal::Backward.number(), 7);
    /// ```
    pub const fn number(self) -> i32 {
        self as i32
    }

    /// The refusal that has this number, if any has it.
    ///
    /// ```
    /// use bradawlet::Refusal;
    ///
    /// assert_eq!(Refusal::from_number(7), Some(Refusal::Backward));
    /// assert_eq!(Refusal::from_number(0), None);
    /// ```
    pub fn from_number(number: i32) -> Option<Refusal> {
        Refusal::ALL.iter().copied().find(|refusal| refusal.number() == number)
    }

    fn what_was_wrong(self) -> &'static str {
        match self {
            Refusal::NotSound => "the words are not a sound table",
            Refusal::BadCapacity => "the capacity is not from 1 to 256",
            Refusal::ShortTable => "the words are too few for the capacity",
            Refusal::OutOfRange => "an argument is outside its range",
            Refusal::BeforeClock => "the minute or the query's start is before the clock or the report",
            Refusal::ExpiresFirst => "the report's expiry is not after its minute",
            Refusal::Backward => "the query goes backward",
            Refusal::NotLive => "the cell is not live",
            Refusal::Full => "there are more cells than the table is for",
            Refusal::ShortList => "there are more hits than the list has places",
            Refusal::BadHeader => "the sheet's header is wrong",
            Refusal::BadRecord => "a record of the sheet is wrong",
            Refusal::ShortBytes => "the bytes are too few for the sheet or the text",
            Refusal::NoTrack => "the line and the identifier give no cell",
        }
    }
}

impl fmt::Display for Refusal {
    fn fmt(&self, f: &mut fmt::Formatter<'_>) -> fmt::Result {
        write!(f, "refused by {}: {}", self.number(), self.what_was_wrong())
    }
}

impl Error for Refusal {}

/// Why a query into a lent list was refused, and how many hits there are if the list was too short for them.
///
/// ```
/// use bradawlet::{Rectangle, Refusal, Report, Table, Window};
///
/// let mut table = Table::new(8)?;
/// table.report(&Report { id: 7, x: 100, y: 200, vx: 5, vy: -3, minute: 10, expiry: 40 })?;
/// let rectangle = Rectangle { xlow: 0, xhigh: 500, ylow: 0, yhigh: 500 };
/// let refused = table.window_into(&Window { start: 10, end: 20, rectangle }, &mut []).unwrap_err();
/// assert_eq!((refused.refusal, refused.hits), (Refusal::ShortList, 1));
/// # Ok::<(), Refusal>(())
/// ```
#[derive(Debug, Clone, Copy, PartialEq, Eq, Hash)]
pub struct NotListed {
    /// Why.
    pub refusal: Refusal,
    /// How many cells meet the query, with [`Refusal::ShortList`]; 0 with any other refusal, which says
    /// nothing of hits.
    pub hits: usize,
}

impl fmt::Display for NotListed {
    fn fmt(&self, f: &mut fmt::Formatter<'_>) -> fmt::Result {
        match self.refusal {
            Refusal::ShortList => write!(f, "{}; hits: {}", self.refusal, self.hits),
            _ => self.refusal.fmt(f),
        }
    }
}

impl Error for NotListed {}

impl From<NotListed> for Refusal {
    fn from(not_listed: NotListed) -> Refusal {
        not_listed.refusal
    }
}

/// What the number of a call on a table, or of the reading of a line, says.
pub(crate) fn accepted(number: i32) -> Result<(), Refusal> {
    match number {
        0 => Ok(()),
        refused => Err(refusal_of(refused)),
    }
}

/// The refusal that a call gave.
///
/// # Panics
///
/// If none has this number: then what is linked is not this crate's archive.
pub(crate) fn refusal_of(number: i32) -> Refusal {
    Refusal::from_number(number).unwrap_or_else(|| another_library(number))
}

/// A count that a call gave.
///
/// # Panics
///
/// If it is below 0: then what is linked is not this crate's archive.
pub(crate) fn count(given: i32) -> usize {
    usize::try_from(given).unwrap_or_else(|_| another_library(given))
}

pub(crate) fn another_library(given: impl fmt::Display) -> ! {
    panic!("libbradawlet.a is another library: it gave {given}, which no call gives")
}

#[cfg(test)]
mod tests {
    use super::*;

    #[test]
    fn zero_alone_is_accepted() {
        assert_eq!(accepted(0), Ok(()));
        assert_eq!(accepted(1), Err(Refusal::NotSound));
        assert_eq!(accepted(14), Err(Refusal::NoTrack));
    }

    #[test]
    #[should_panic(expected = "another library: it gave 15")]
    fn a_number_that_no_call_gives_is_no_answer() {
        let _ = accepted(15);
    }

    #[test]
    #[should_panic(expected = "another library: it gave -1")]
    fn a_count_below_zero_is_no_answer() {
        count(-1);
    }
}
