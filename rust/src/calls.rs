//! The calls of `libbradawlet.a`. All that is `unsafe` stands here: each call is wrapped once, and takes
//! slices in the place of a pointer and a length.
//!
//! The calls take any numbers, any words and any bytes, and need no more of memory than that it is lent with
//! its length, and that what they write is apart from all else. Slices have their lengths with them, and a
//! `&mut` is apart from all else.

use crate::asked::{Moving, Rectangle, Report, Window};

/// The numbers of a sheet's record.
pub const RECORD: usize = 6;

mod c {
    extern "C" {
        pub fn bradawlet_fresh(table: *mut i32, words: usize, cells: i32) -> i32;

        pub fn bradawlet_report(
            table: *mut i32,
            words: usize,
            id: i32,
            x: i32,
            y: i32,
            vx: i32,
            vy: i32,
            minute: i32,
            expiry: i32,
        ) -> i32;

        pub fn bradawlet_drop(table: *mut i32, words: usize, id: i32, minute: i32) -> i32;

        pub fn bradawlet_window(
            table: *const i32,
            words: usize,
            list: *mut i32,
            places: usize,
            start: i32,
            end: i32,
            xlow: i32,
            xhigh: i32,
            ylow: i32,
            yhigh: i32,
            hits: *mut i32,
            opened: *mut i32,
        ) -> i32;

        pub fn bradawlet_moving(
            table: *const i32,
            words: usize,
            list: *mut i32,
            places: usize,
            start: i32,
            end: i32,
            xlow: i32,
            xhigh: i32,
            ylow: i32,
            yhigh: i32,
            xlow2: i32,
            xhigh2: i32,
            ylow2: i32,
            yhigh2: i32,
            hits: *mut i32,
            opened: *mut i32,
        ) -> i32;

        pub fn bradawlet_write(
            table: *const i32,
            words: usize,
            bytes: *mut u8,
            length: usize,
            total: *mut i32,
        ) -> i32;

        pub fn bradawlet_read(
            table: *mut i32,
            words: usize,
            cells: i32,
            bytes: *const u8,
            length: usize,
        ) -> i32;

        pub fn bradawlet_open(table: *const i32, words: usize) -> i32;

        pub fn bradawlet_next(table: *const i32, words: usize, last: i32, numbers: *mut i32) -> i32;

        pub fn bradawlet_tracks(
            table: *const i32,
            words: usize,
            bytes: *mut u8,
            length: usize,
            total: *mut i32,
        ) -> i32;

        pub fn bradawlet_read_track(id: i32, line: *const u8, length: usize, numbers: *mut i32) -> i32;

        pub fn bradawlet_meets(
            id: i32,
            x: i32,
            y: i32,
            vx: i32,
            vy: i32,
            minute: i32,
            expiry: i32,
            start: i32,
            end: i32,
            xlow: i32,
            xhigh: i32,
            ylow: i32,
            yhigh: i32,
        ) -> i32;

        pub fn bradawlet_meets_moving(
            id: i32,
            x: i32,
            y: i32,
            vx: i32,
            vy: i32,
            minute: i32,
            expiry: i32,
            start: i32,
            end: i32,
            xlow: i32,
            xhigh: i32,
            ylow: i32,
            yhigh: i32,
            xlow2: i32,
            xhigh2: i32,
            ylow2: i32,
            yhigh2: i32,
        ) -> i32;

        pub fn bradawlet_sheet(bytes: *const u8, length: usize) -> i32;
    }
}

/// What a query gives back.
pub struct Answer {
    pub number: i32,
    pub hits: i32,
    pub opened: i32,
}

pub fn fresh(table: &mut [i32], cells: i32) -> i32 {
    // SAFETY: the words are lent with their number, and are apart from all else.
    unsafe { c::bradawlet_fresh(table.as_mut_ptr(), table.len(), cells) }
}

pub fn report(table: &mut [i32], report: &Report) -> i32 {
    let Report { id, x, y, vx, vy, minute, expiry } = *report;
    // SAFETY: the words are lent with their number, and are apart from all else.
    unsafe { c::bradawlet_report(table.as_mut_ptr(), table.len(), id, x, y, vx, vy, minute, expiry) }
}

pub fn drop(table: &mut [i32], id: i32, minute: i32) -> i32 {
    // SAFETY: the words are lent with their number, and are apart from all else.
    unsafe { c::bradawlet_drop(table.as_mut_ptr(), table.len(), id, minute) }
}

pub fn window(table: &[i32], list: &mut [i32], window: &Window) -> Answer {
    let Window { start, end, rectangle: Rectangle { xlow, xhigh, ylow, yhigh } } = *window;
    let (mut hits, mut opened) = (0, 0);
    // SAFETY: the words are lent with their number and only read; the list is lent with its length, and it
    // and the two counts are apart from all else.
    let number = unsafe {
        c::bradawlet_window(
            table.as_ptr(),
            table.len(),
            list.as_mut_ptr(),
            list.len(),
            start,
            end,
            xlow,
            xhigh,
            ylow,
            yhigh,
            &mut hits,
            &mut opened,
        )
    };
    Answer { number, hits, opened }
}

pub fn moving(table: &[i32], list: &mut [i32], moving: &Moving) -> Answer {
    let Moving { start, end, first, last } = *moving;
    let (mut hits, mut opened) = (0, 0);
    // SAFETY: the words are lent with their number and only read; the list is lent with its length, and it
    // and the two counts are apart from all else.
    let number = unsafe {
        c::bradawlet_moving(
            table.as_ptr(),
            table.len(),
            list.as_mut_ptr(),
            list.len(),
            start,
            end,
            first.xlow,
            first.xhigh,
            first.ylow,
            first.yhigh,
            last.xlow,
            last.xhigh,
            last.ylow,
            last.yhigh,
            &mut hits,
            &mut opened,
        )
    };
    Answer { number, hits, opened }
}

/// The number, and the sheet's total.
pub fn write(table: &[i32], bytes: &mut [u8]) -> (i32, i32) {
    let mut total = 0;
    // SAFETY: the words are lent with their number and only read; the bytes are lent with theirs, and they
    // and the total are apart from all else.
    let number = unsafe {
        c::bradawlet_write(table.as_ptr(), table.len(), bytes.as_mut_ptr(), bytes.len(), &mut total)
    };
    (number, total)
}

pub fn read(table: &mut [i32], cells: i32, bytes: &[u8]) -> i32 {
    // SAFETY: the words are lent with their number, and are apart from all else; the bytes are lent with
    // theirs and only read.
    unsafe { c::bradawlet_read(table.as_mut_ptr(), table.len(), cells, bytes.as_ptr(), bytes.len()) }
}

pub fn open(table: &[i32]) -> i32 {
    // SAFETY: the words are lent with their number and only read.
    unsafe { c::bradawlet_open(table.as_ptr(), table.len()) }
}

/// The answer, 0 for none and 1 for one, and the cell's numbers.
pub fn next(table: &[i32], last: i32) -> (i32, [i32; RECORD]) {
    let mut numbers = [0; RECORD];
    // SAFETY: the words are lent with their number and only read; there is room for a record's numbers, apart
    // from all else.
    let answer = unsafe { c::bradawlet_next(table.as_ptr(), table.len(), last, numbers.as_mut_ptr()) };
    (answer, numbers)
}

/// The number, and the text's total.
pub fn tracks(table: &[i32], bytes: &mut [u8]) -> (i32, i32) {
    let mut total = 0;
    // SAFETY: the words are lent with their number and only read; the bytes are lent with theirs, and they
    // and the total are apart from all else.
    let number = unsafe {
        c::bradawlet_tracks(table.as_ptr(), table.len(), bytes.as_mut_ptr(), bytes.len(), &mut total)
    };
    (number, total)
}

/// The number, and the cell's numbers.
pub fn read_track(id: i32, line: &[u8]) -> (i32, [i32; RECORD]) {
    let mut numbers = [0; RECORD];
    // SAFETY: the bytes are lent with their number and only read; there is room for a record's numbers, apart
    // from all else.
    let number = unsafe { c::bradawlet_read_track(id, line.as_ptr(), line.len(), numbers.as_mut_ptr()) };
    (number, numbers)
}

pub fn meets(report: &Report, window: &Window) -> i32 {
    let Report { id, x, y, vx, vy, minute, expiry } = *report;
    let Window { start, end, rectangle: Rectangle { xlow, xhigh, ylow, yhigh } } = *window;
    // SAFETY: numbers go in and a number comes out; no memory is lent.
    unsafe { c::bradawlet_meets(id, x, y, vx, vy, minute, expiry, start, end, xlow, xhigh, ylow, yhigh) }
}

pub fn meets_moving(report: &Report, moving: &Moving) -> i32 {
    let Report { id, x, y, vx, vy, minute, expiry } = *report;
    let Moving { start, end, first, last } = *moving;
    // SAFETY: numbers go in and a number comes out; no memory is lent.
    unsafe {
        c::bradawlet_meets_moving(
            id,
            x,
            y,
            vx,
            vy,
            minute,
            expiry,
            start,
            end,
            first.xlow,
            first.xhigh,
            first.ylow,
            first.yhigh,
            last.xlow,
            last.xhigh,
            last.ylow,
            last.yhigh,
        )
    }
}

pub fn sheet(bytes: &[u8]) -> i32 {
    // SAFETY: the bytes are lent with their number and only read.
    unsafe { c::bradawlet_sheet(bytes.as_ptr(), bytes.len()) }
}
