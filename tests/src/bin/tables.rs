//! Compares the calls of libbradawlet.a over tables with a plain scan and a judge of their own. With an
//! argument it compares nothing: `opened` counts the nodes that queries open over a day, `lines` prints lines
//! of well-known text for other readers, and `writing` times a table's text beside its sheet.
//!
//! The calls are declared here once more, and not asked through the crate: what is lent to them is no table
//! at times, and lies beside pages without access.

// The crate brings the archive into the link.
use bradawlet as _;
use outside::pages::{Beside, Side};
use outside::question::{Kind, Report, QUERY_NUMBERS};
use outside::tables::library::{Answer, Library, Written};
use outside::tables::model::Change;
use outside::tables::sheet::RECORD_NUMBERS;
use outside::tables::{families, lines, opened, writing};
use std::process::ExitCode;

extern "C" {
    fn bradawlet_fresh(table: *mut i32, words: usize, cells: i32) -> i32;

    fn bradawlet_report(
        table: *mut i32,
        words: usize,
        id: i32,
        x: i32,
        y: i32,
        vx: i32,
        vy: i32,
        minute: i32,
        expiry: i32,
    ) -> i32;

    fn bradawlet_drop(table: *mut i32, words: usize, id: i32, minute: i32) -> i32;

    fn bradawlet_window(
        table: *const i32,
        words: usize,
        list: *mut i32,
        places: usize,
        start: i32,
        end: i32,
        xlow: i32,
        xhigh: i32,
        ylow: i32,
        yhigh: i32,
        hits: *mut i32,
        opened: *mut i32,
    ) -> i32;

    fn bradawlet_moving(
        table: *const i32,
        words: usize,
        list: *mut i32,
        places: usize,
        start: i32,
        end: i32,
        xlow: i32,
        xhigh: i32,
        ylow: i32,
        yhigh: i32,
        xlow2: i32,
        xhigh2: i32,
        ylow2: i32,
        yhigh2: i32,
        hits: *mut i32,
        opened: *mut i32,
    ) -> i32;

    fn bradawlet_write(
        table: *const i32,
        words: usize,
        bytes: *mut u8,
        length: usize,
        total: *mut i32,
    ) -> i32;

    fn bradawlet_read(table: *mut i32, words: usize, cells: i32, bytes: *const u8, length: usize) -> i32;

    fn bradawlet_open(table: *const i32, words: usize) -> i32;

    fn bradawlet_next(table: *const i32, words: usize, last: i32, numbers: *mut i32) -> i32;

    fn bradawlet_tracks(
        table: *const i32,
        words: usize,
        bytes: *mut u8,
        length: usize,
        total: *mut i32,
    ) -> i32;

    fn bradawlet_read_track(id: i32, line: *const u8, length: usize, numbers: *mut i32) -> i32;
}

fn fresh(table: &mut [i32], cells: i32) -> i32 {
    // The words are ours, and lent with their number.
    unsafe { bradawlet_fresh(table.as_mut_ptr(), table.len(), cells) }
}

fn change(table: &mut [i32], change: &Change) -> i32 {
    let (words, table) = (table.len(), table.as_mut_ptr());
    // The words are ours, and lent with their number.
    unsafe {
        match *change {
            Change::Report(Report { id, x, y, vx, vy, minute, expiry }) => {
                bradawlet_report(table, words, id, x, y, vx, vy, minute, expiry)
            }
            Change::Drop { id, minute } => bradawlet_drop(table, words, id, minute),
        }
    }
}

fn query(kind: Kind, table: &mut [i32], list: &mut [i32], numbers: &[i32; QUERY_NUMBERS]) -> Answer {
    let [start, end, xlow, xhigh, ylow, yhigh, xlow2, xhigh2, ylow2, yhigh2] = *numbers;
    let side = Side::by(numbers.iter().fold(0, |mixed, number| mixed ^ number));
    // Neither is what any call answers, so that both must be written.
    let (mut hits, mut opened) = (Beside::holding(&[-77], side), Beside::holding(&[-78], side));
    let (words, places) = (table.len(), list.len());
    let (table, list) = (table.as_mut_ptr(), list.as_mut_ptr());
    // Table and list are ours, apart from each other, and lent with their lengths.
    let number = unsafe {
        match kind {
            Kind::Window => bradawlet_window(
                table,
                words,
                list,
                places,
                start,
                end,
                xlow,
                xhigh,
                ylow,
                yhigh,
                hits.as_mut_ptr(),
                opened.as_mut_ptr(),
            ),
            Kind::Moving => bradawlet_moving(
                table,
                words,
                list,
                places,
                start,
                end,
                xlow,
                xhigh,
                ylow,
                yhigh,
                xlow2,
                xhigh2,
                ylow2,
                yhigh2,
                hits.as_mut_ptr(),
                opened.as_mut_ptr(),
            ),
        }
    };
    Answer { number, hits: hits[0], opened: opened[0] }
}

fn write(table: &mut [i32], bytes: &mut [u8]) -> Written {
    let (words, length) = (table.len(), bytes.len());
    // No call answers it, so that it must be written.
    let mut total = Beside::holding(&[-77], Side::by(length as i32));
    let (table, bytes) = (table.as_mut_ptr(), bytes.as_mut_ptr());
    // Table and bytes are ours, apart from each other, and lent with their lengths.
    let number = unsafe { bradawlet_write(table, words, bytes, length, total.as_mut_ptr()) };
    Written { number, total: total[0] }
}

fn read(table: &mut [i32], cells: i32, bytes: &[u8]) -> i32 {
    // Table and bytes are ours, apart from each other, and lent with their lengths.
    unsafe { bradawlet_read(table.as_mut_ptr(), table.len(), cells, bytes.as_ptr(), bytes.len()) }
}

fn open(table: &mut [i32]) -> i32 {
    // The words are ours, and lent with their number.
    unsafe { bradawlet_open(table.as_mut_ptr(), table.len()) }
}

fn next(table: &mut [i32], last: i32, numbers: &mut [i32; RECORD_NUMBERS]) -> i32 {
    // Both are ours, apart from each other; the second has room for a record's numbers.
    unsafe { bradawlet_next(table.as_mut_ptr(), table.len(), last, numbers.as_mut_ptr()) }
}

fn tracks(table: &mut [i32], bytes: &mut [u8]) -> Written {
    let (words, length) = (table.len(), bytes.len());
    // No call answers it, so that it must be written.
    let mut total = Beside::holding(&[-77], Side::by(length as i32));
    let (table, bytes) = (table.as_mut_ptr(), bytes.as_mut_ptr());
    // Table and bytes are ours, apart from each other, and lent with their lengths.
    let number = unsafe { bradawlet_tracks(table, words, bytes, length, total.as_mut_ptr()) };
    Written { number, total: total[0] }
}

fn read_track(id: i32, line: &mut [u8], numbers: &mut [i32; RECORD_NUMBERS]) -> i32 {
    // Both are ours, apart from each other; the second has room for a record's numbers.
    unsafe { bradawlet_read_track(id, line.as_mut_ptr(), line.len(), numbers.as_mut_ptr()) }
}

fn printed(print: fn(&Library), library: &Library) -> ExitCode {
    print(library);
    ExitCode::SUCCESS
}

fn main() -> ExitCode {
    let library = Library { fresh, change, query, write, read, open, next, tracks, read_track };
    match std::env::args().nth(1).as_deref() {
        None => families::run(&library).report(),
        Some("opened") => printed(opened::print, &library),
        Some("lines") => printed(lines::print, &library),
        Some("writing") => printed(writing::print, &library),
        Some(other) => {
            eprintln!("no such argument: {other}");
            ExitCode::FAILURE
        }
    }
}
