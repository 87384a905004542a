//! Every refusal comes up through the crate, each by its own number, and in the order that calls have.

use bradawlet::{
    judge_sheet, meets, meets_moving, read_track, words_for, Moving, NotListed, Rectangle, Refusal, Report,
    Table, Window,
};
use std::error::Error;

const CELL: Report = Report { id: 7, x: 100, y: 200, vx: 5, vy: -3, minute: 10, expiry: 40 };
const EVERYWHERE: Rectangle = Rectangle { xlow: -100_000, xhigh: 100_000, ylow: -100_000, yhigh: 100_000 };
const INSIDE_OUT: Rectangle = Rectangle { xlow: 1, xhigh: 0, ylow: 0, yhigh: 0 };
const SOON: Window = Window { start: 10, end: 20, rectangle: EVERYWHERE };

fn with_one_cell() -> Table<Vec<i32>> {
    let mut table = Table::new(1).expect("a capacity that there is");
    table.report(&CELL).expect("a report that is in range");
    table
}

/// A sheet as the paper has it: words of 32 bits, little-endian.
fn bytes(words: &[i32]) -> Vec<u8> {
    words.iter().flat_map(|word| word.to_le_bytes()).collect()
}

#[test]
fn each_of_the_fourteen_comes_up() {
    let mut table = with_one_cell();
    let sheet_of_two = bytes(&[2, 16, 0, 64, 1, 0, 0, 0, 0, 9, 2, 0, 0, 0, 0, 9]);
    let given = [
        Table::over(vec![0; words_for(1)]).map(drop).unwrap_err(),
        Table::new(257).map(drop).unwrap_err(),
        Table::fresh([0; words_for(1) - 1], 1).map(drop).unwrap_err(),
        table.report(&Report { vx: 513, ..CELL }).unwrap_err(),
        table.report(&Report { minute: 9, ..CELL }).unwrap_err(),
        table.report(&Report { expiry: 10, ..CELL }).unwrap_err(),
        table.window(&Window { start: 20, end: 10, ..SOON }).unwrap_err(),
        table.drop_cell(8, 10).unwrap_err(),
        table.report(&Report { id: 8, ..CELL }).unwrap_err(),
        table.window_into(&SOON, &mut []).unwrap_err().refusal,
        judge_sheet(&bytes(&[0, 16, 0])).unwrap_err(),
        judge_sheet(&bytes(&[1, 16, 10, 40, 7, 50, 5, 230, -3, 10])).unwrap_err(),
        table.write_sheet(&mut [0; 39]).unwrap_err(),
        read_track(7, "LINESTRING M (1000 2000 10, 2500 1100 40)").unwrap_err(),
    ];
    let numbers: Vec<i32> = given.iter().map(|refusal| refusal.number()).collect();
    assert_eq!(numbers, (1..=14).collect::<Vec<i32>>());
    assert_eq!(Table::new_from_sheet(1, &sheet_of_two).unwrap_err().number(), 9);
    assert_eq!(table.write_tracks(&mut [0; 41]).unwrap_err().number(), 13);
}

#[test]
fn a_number_is_a_refusal_from_1_to_14_alone() {
    for number in -3..20 {
        let refusal = Refusal::from_number(number);
        assert_eq!(refusal.map(Refusal::number), (1..=14).contains(&number).then_some(number));
    }
    assert_eq!(Refusal::from_number(i32::MIN), None);
    assert_eq!(Refusal::from_number(i32::MAX), None);
}

#[test]
fn refusals_are_errors_that_say_their_number_and_a_text_of_their_own() {
    let mut texts: Vec<String> = Vec::new();
    for refusal in Refusal::ALL {
        let error: Box<dyn Error + Send + Sync> = Box::new(refusal);
        let text = error.to_string();
        let (number, clause) = text.split_once(": ").expect("the number, and what was wrong");
        assert_eq!(number, format!("refused by {}", refusal.number()));
        assert!(clause.starts_with(|first: char| first.is_ascii_lowercase()), "{clause}");
        assert!(!texts.iter().any(|other| other == clause), "{clause}");
        texts.push(clause.to_string());
    }
}

#[test]
fn only_a_short_list_comes_with_a_count() {
    let table = with_one_cell();
    let short = table.window_into(&SOON, &mut []).unwrap_err();
    assert_eq!(short, NotListed { refusal: Refusal::ShortList, hits: 1 });
    assert_eq!(short.to_string(), "refused by 10: there are more hits than the list has places; hits: 1");
    let early = table.window_into(&Window { start: 9, ..SOON }, &mut []).unwrap_err();
    assert_eq!(early, NotListed { refusal: Refusal::BeforeClock, hits: 0 });
    assert_eq!(early.to_string(), Refusal::BeforeClock.to_string());
    let moving = Moving { start: 10, end: 20, first: EVERYWHERE, last: EVERYWHERE };
    let short = table.moving_into(&moving, &mut []).unwrap_err();
    assert_eq!(short, NotListed { refusal: Refusal::ShortList, hits: 1 });
    assert_eq!(Refusal::from(short), Refusal::ShortList);
}

#[test]
fn queries_give_the_first_of_their_reasons() {
    let table = with_one_cell();
    let refused = |start, end, rectangle| table.window(&Window { start, end, rectangle }).unwrap_err();
    assert_eq!(refused(9, 1441, INSIDE_OUT), Refusal::OutOfRange);
    assert_eq!(refused(9, 8, INSIDE_OUT), Refusal::BeforeClock);
    assert_eq!(refused(10, 10, INSIDE_OUT), Refusal::Backward);
    let moving = Moving { start: 10, end: 10, first: EVERYWHERE, last: EVERYWHERE };
    assert_eq!(table.moving(&moving), Err(Refusal::Backward));
    assert_eq!(table.moving(&Moving { start: 9, ..moving }), Err(Refusal::BeforeClock));
    assert_eq!(table.moving(&Moving { last: INSIDE_OUT, end: 11, ..moving }), Err(Refusal::Backward));
}

#[test]
fn changes_give_the_first_of_their_reasons_and_change_nothing() {
    let mut table = with_one_cell();
    let before = table.words().to_vec();
    for expiry in [8, 9] {
        let early = Report { id: 8, minute: 9, expiry, ..CELL };
        assert_eq!(table.report(&Report { id: 0, ..early }), Err(Refusal::OutOfRange));
        assert_eq!(table.report(&early), Err(Refusal::BeforeClock));
    }
    for expiry in [9, 10] {
        assert_eq!(table.report(&Report { id: 8, expiry, ..CELL }), Err(Refusal::ExpiresFirst));
    }
    assert_eq!(table.report(&Report { id: 8, expiry: 11, ..CELL }), Err(Refusal::Full));
    assert_eq!(table.drop_cell(0, 9), Err(Refusal::OutOfRange));
    assert_eq!(table.drop_cell(8, 9), Err(Refusal::BeforeClock));
    assert_eq!(table.drop_cell(7, 40), Err(Refusal::NotLive));
    assert_eq!(table.drop_cell(7, 41), Err(Refusal::NotLive));
    assert_eq!(table.words(), before);
}

/// In a table for one cell: the room of the old one is free in the minute of its expiry, and not before.
#[test]
fn a_successor_in_the_very_minute_is_never_found_beside_the_old_cell() {
    for id in [7, 8] {
        let mut table = with_one_cell();
        let other = Report { id: 8, minute: 39, expiry: 70, ..CELL };
        assert_eq!(table.report(&other), Err(Refusal::Full));
        let until_then = table.window(&Window { start: 39, end: 41, ..SOON }).expect("accepted");
        assert_eq!(until_then.ids, [7]);
        assert_eq!(table.window(&Window { start: 40, end: 41, ..SOON }).expect("accepted").ids, []);
        let successor = Report { id, x: 250, y: 110, minute: 40, expiry: 70, ..CELL };
        table.report(&successor).expect("the room is free");
        assert_eq!(table.window(&Window { start: 40, end: 40, ..SOON }).expect("accepted").ids, [id]);
        let moving = Moving { start: 40, end: 41, first: EVERYWHERE, last: EVERYWHERE };
        assert_eq!(table.moving(&moving).expect("accepted").ids, [id]);
        let live: Vec<i32> = table.cells().expect("sound").map(|cell| cell.id).collect();
        assert_eq!(live, [id]);
        assert_eq!(table.drop_cell(15 - id, 40), Err(Refusal::NotLive));
        table.drop_cell(id, 40).expect("live");
    }
}

#[test]
fn nothing_lives_at_the_last_minute_of_the_day() {
    let mut table = with_one_cell();
    let late = Report { minute: 1440, expiry: 1440, ..CELL };
    assert_eq!(table.report(&late), Err(Refusal::ExpiresFirst));
    assert_eq!(table.drop_cell(7, 1440), Err(Refusal::NotLive));
    table.report(&Report { minute: 1439, ..late }).expect("it lives for one minute");
    let found = |start| table.window(&Window { start, end: 1440, ..SOON }).expect("accepted").ids;
    assert_eq!(found(1439), [7]);
    assert_eq!(found(1440), []);
}

#[test]
fn one_report_and_one_query_give_the_first_of_their_reasons() {
    let refused = |report: &Report, start, end| meets(report, &Window { start, end, ..SOON }).unwrap_err();
    assert_eq!(refused(&Report { expiry: 9, vy: -513, ..CELL }, 9, 8), Refusal::OutOfRange);
    assert_eq!(refused(&Report { expiry: 9, ..CELL }, 9, 8), Refusal::BeforeClock);
    assert_eq!(refused(&Report { expiry: 9, ..CELL }, 20, 10), Refusal::ExpiresFirst);
    assert_eq!(refused(&Report { expiry: 10, ..CELL }, 9, 8), Refusal::BeforeClock);
    assert_eq!(refused(&Report { expiry: 10, ..CELL }, 20, 10), Refusal::ExpiresFirst);
    assert_eq!(refused(&Report { expiry: 10, ..CELL }, 10, 10), Refusal::ExpiresFirst);
    assert_eq!(refused(&CELL, 20, 10), Refusal::Backward);
    assert_eq!(meets(&CELL, &SOON), Ok(true));
    let moving = Moving { start: 10, end: 10, first: EVERYWHERE, last: EVERYWHERE };
    assert_eq!(meets_moving(&CELL, &moving), Err(Refusal::Backward));
    assert_eq!(meets_moving(&CELL, &Moving { end: 11, ..moving }), Ok(true));
    assert_eq!(meets_moving(&Report { expiry: 10, ..CELL }, &moving), Err(Refusal::ExpiresFirst));
}

/// Cell 7 comes to (250, 110) at its expiry, and is in the square before that point from minute 39.8 on.
#[test]
fn a_track_meets_before_its_expiry_alone() {
    let point = Rectangle { xlow: 250, xhigh: 250, ylow: 110, yhigh: 110 };
    let square = Rectangle { xlow: 249, ylow: 110, xhigh: 250, yhigh: 111 };
    let in_window = |start, end, rectangle| meets(&CELL, &Window { start, end, rectangle });
    assert_eq!(in_window(40, 40, point), Ok(false));
    assert_eq!(in_window(39, 40, point), Ok(false));
    assert_eq!(in_window(39, 41, point), Ok(false));
    assert_eq!(in_window(39, 40, square), Ok(true));
    assert_eq!(in_window(40, 41, square), Ok(false));
    let at_40 = Window { start: 40, end: 40, rectangle: point };
    assert_eq!(meets(&Report { expiry: 41, ..CELL }, &at_40), Ok(true));
    let in_moving = |start, end, last| {
        let first = Rectangle { xlow: -100_000, xhigh: -100_000, ..EVERYWHERE };
        meets_moving(&CELL, &Moving { start, end, first, last })
    };
    assert_eq!(in_moving(38, 40, point), Ok(false));
    assert_eq!(in_moving(38, 40, EVERYWHERE), Ok(true));
    assert_eq!(in_moving(40, 42, EVERYWHERE), Ok(false));
}

#[test]
fn sheets_give_the_first_of_their_reasons() {
    let two_that_fall = bytes(&[2, 16, 0, 64, 2, 0, 0, 0, 0, 9, 1, 0, 0, 0, 0, 9]);
    let read = |cells, words: usize, sheet: &[u8]| {
        Table::from_sheet(vec![0; words], cells, sheet).map(drop).unwrap_err()
    };
    assert_eq!(read(0, 0, &[]), Refusal::BadCapacity);
    assert_eq!(read(1, 111, &[]), Refusal::ShortTable);
    assert_eq!(read(1, 112, &two_that_fall[1..]), Refusal::BadHeader);
    assert_eq!(read(1, 112, &two_that_fall), Refusal::Full);
    assert_eq!(read(2, 208, &two_that_fall), Refusal::BadRecord);
    assert_eq!(judge_sheet(&two_that_fall), Err(Refusal::BadRecord));
    assert_eq!(judge_sheet(&two_that_fall[1..]), Err(Refusal::BadHeader));
}

#[test]
fn a_sheet_has_cells_that_expire_after_its_clock() {
    let sheet = |clock, expiry| bytes(&[1, 16, clock, 40, 7, 50, 5, 230, -3, expiry]);
    for (clock, expiry) in [(10, 9), (10, 10), (0, 0), (1440, 1440)] {
        assert_eq!(judge_sheet(&sheet(clock, expiry)), Err(Refusal::BadRecord));
        let read = Table::new_from_sheet(1, &sheet(clock, expiry)).map(drop);
        assert_eq!(read, Err(Refusal::BadRecord));
    }
    for (clock, expiry) in [(10, 11), (0, 1), (0, 1440), (1439, 1440)] {
        assert_eq!(judge_sheet(&sheet(clock, expiry)), Ok(()));
        let read = Table::new_from_sheet(1, &sheet(clock, expiry)).expect("well formed");
        assert_eq!(read.to_sheet(), Ok(sheet(clock, expiry)));
        assert_eq!(read.cells().expect("sound").count(), 1);
    }
    let at_the_end = bytes(&[0, 16, 1440, 16]);
    assert_eq!(judge_sheet(&at_the_end), Ok(()));
    assert_eq!(Table::new_from_sheet(1, &at_the_end).expect("well formed").to_sheet(), Ok(at_the_end));
}
