//! One report and one query, without a table; and bytes as a sheet.

use crate::asked::{Moving, Report, Window};
use crate::calls;
use crate::refusal::{refusal_of, Refusal};

/// Whether the track of a reported cell meets a window: at one instant, from start to end and before the
/// cell's expiry, x and y both lie within the rectangle. Fractions of a minute count, and so do the edges,
/// the start and the end, but the expiry does not.
///
/// # Errors
///
/// The first of [`OutOfRange`](Refusal::OutOfRange), [`BeforeClock`](Refusal::BeforeClock) if the window
/// starts before the report's minute, [`ExpiresFirst`](Refusal::ExpiresFirst) and
/// [`Backward`](Refusal::Backward).
///
/// ```
/// use bradawlet::{meets, Rectangle, Refusal, Report, Window};
///
/// let report = Report { id: 1, x: 0, y: 0, vx: 3, vy: 3, minute: 0, expiry: 40 };
/// let point = Rectangle { xlow: 1, xhigh: 1, ylow: 1, yhigh: 1 };
/// // After a third of a minute.
/// assert_eq!(meets(&report, &Window { start: 0, end: 1, rectangle: point }), Ok(true));
/// assert_eq!(meets(&report, &Window { start: 1, end: 2, rectangle: point }), Ok(false));
/// assert_eq!(meets(&report, &Window { start: 1, end: 0, rectangle: point }), Err(Refusal::Backward));
/// // At its expiry the track is here, but the cell says nothing any more.
/// let there = Rectangle { xlow: 120, xhigh: 120, ylow: 120, yhigh: 120 };
/// assert_eq!(meets(&report, &Window { start: 39, end: 40, rectangle: there }), Ok(false));
/// ```
pub fn meets(report: &Report, window: &Window) -> Result<bool, Refusal> {
    yes_or_no(calls::meets(report, window))
}

/// Whether the track of a reported cell meets a rectangle that moves.
///
/// # Errors
///
/// The first of [`OutOfRange`](Refusal::OutOfRange), [`BeforeClock`](Refusal::BeforeClock) if the query
/// starts before the report's minute, [`ExpiresFirst`](Refusal::ExpiresFirst) and
/// [`Backward`](Refusal::Backward), which is given for a start equal to the end too.
///
/// ```
/// use bradawlet::{meets_moving, Moving, Rectangle, Report};
///
/// let report = Report { id: 1, x: 3, y: 0, vx: 1, vy: 0, minute: 0, expiry: 40 };
/// let first = Rectangle { xlow: 0, xhigh: 2, ylow: 0, yhigh: 0 };
/// let last = Rectangle { xlow: 20, xhigh: 22, ylow: 0, yhigh: 0 };
/// assert_eq!(meets_moving(&report, &Moving { start: 0, end: 10, first, last }), Ok(true));
/// ```
pub fn meets_moving(report: &Report, moving: &Moving) -> Result<bool, Refusal> {
    yes_or_no(calls::meets_moving(report, moving))
}

/// Whether bytes are a well-formed sheet.
///
/// # Errors
///
/// The first of [`BadHeader`](Refusal::BadHeader) and [`BadRecord`](Refusal::BadRecord).
///
/// ```
/// use bradawlet::{judge_sheet, Refusal, Table};
///
/// let mut sheet = Table::new(1)?.to_sheet()?;
/// assert_eq!(judge_sheet(&sheet), Ok(()));
/// sheet.push(0);
/// assert_eq!(judge_sheet(&sheet), Err(Refusal::BadHeader));
/// # Ok::<(), Refusal>(())
/// ```
pub fn judge_sheet(bytes: &[u8]) -> Result<(), Refusal> {
    match calls::sheet(bytes) {
        YES => Ok(()),
        number => Err(refusal_of(number)),
    }
}

/// Here 1 is yes, and not the number of a table that is not sound.
const YES: i32 = 1;
const NO: i32 = 0;

fn yes_or_no(answer: i32) -> Result<bool, Refusal> {
    match answer {
        YES => Ok(true),
        NO => Ok(false),
        number => Err(refusal_of(number)),
    }
}
