//! Tracks as text: the lines of a table, lent bytes of every length, and lines read back.

use bradawlet::{
    longest_tracks, read_track, sheet_length, words_for, Cell, Refusal, Report, Table, LONGEST_TRACK,
    MOST_CELLS,
};

const SEVEN: Report = Report { id: 7, x: 100, y: 200, vx: 5, vy: -3, minute: 10, expiry: 40 };
const NINE: Report = Report { id: 9, x: 0, y: 0, vx: 3, vy: 3, minute: 10, expiry: 30 };
const LINE: &str = "LINESTRING M (1000 2000 10, 2500 1100 40)\n";

/// Not a byte of any line.
const RUBBISH: u8 = 0xa5;

fn with_two_cells() -> Table<Vec<i32>> {
    let mut table = Table::new(8).expect("a capacity that there is");
    table.report(&NINE).expect("there is room");
    table.report(&SEVEN).expect("there is room");
    table
}

/// A table for these cells, which no report need have given.
fn with(clock: i32, cells: &[Cell]) -> Table<Vec<i32>> {
    let total = i32::try_from(sheet_length(cells.len())).expect("a sheet is short");
    let mut words = vec![cells.len() as i32, 16, clock, total];
    for &Cell { id, x, vx, y, vy, expiry } in cells {
        words.extend([id, x, vx, y, vy, expiry]);
    }
    let sheet: Vec<u8> = words.iter().flat_map(|word| word.to_le_bytes()).collect();
    Table::new_from_sheet(cells.len(), &sheet).expect("in range, and rising")
}

#[test]
fn the_text_has_a_line_for_each_live_cell() {
    let mut table = with_two_cells();
    assert_eq!(table.to_tracks().expect("sound"), format!("{LINE}LINESTRING M (0 0 10, 600 600 30)\n"));
    table.report(&Report { minute: 29, ..NINE }).expect("there is room");
    let minute_before = "LINESTRING M (1950 1430 29, 2500 1100 40)\nLINESTRING M (0 0 29, 30 30 30)\n";
    assert_eq!(table.to_tracks().expect("sound"), minute_before);
    table.report(&Report { minute: 30, ..SEVEN }).expect("there is room");
    assert_eq!(table.to_tracks().expect("sound"), "LINESTRING M (1000 2000 30, 1500 1700 40)\n");
    table.drop_cell(7, 39).expect("live until 40");
    assert_eq!(table.to_tracks().expect("sound"), "");
}

#[test]
fn lent_bytes_get_the_whole_text_or_nothing() {
    let table = with_two_cells();
    let text = table.to_tracks().expect("sound");
    assert_eq!(text.len(), 76);
    for length in 0..text.len() + 9 {
        let mut bytes = vec![RUBBISH; length];
        let written = table.write_tracks(&mut bytes);
        if length < text.len() {
            assert_eq!(written, Err(Refusal::ShortBytes));
            assert_eq!(bytes, vec![RUBBISH; length]);
        } else {
            assert_eq!(written, Ok(text.len()));
            assert_eq!(&bytes[..text.len()], text.as_bytes());
            assert_eq!(bytes[text.len()..], vec![RUBBISH; length - text.len()]);
        }
    }
    assert_eq!(Table::over(&[0; words_for(1)][..]).map(drop), Err(Refusal::NotSound));
}

#[test]
fn the_longest_lines_fill_what_is_enough() {
    let cells: Vec<Cell> = (1..=MOST_CELLS as i32)
        .map(|id| Cell { id, x: -837_280, vx: -512, y: -837_280, vy: -512, expiry: 1440 })
        .collect();
    let table = with(1000, &cells);
    let mut bytes = vec![RUBBISH; longest_tracks(MOST_CELLS)];
    assert_eq!(table.write_tracks(&mut bytes[1..]), Err(Refusal::ShortBytes));
    assert_eq!(table.write_tracks(&mut bytes), Ok(bytes.len()));
    for (cell, line) in cells.iter().zip(bytes.chunks(LONGEST_TRACK)) {
        assert_eq!(line, b"LINESTRING M (-13492800 -13492800 1000, -15745600 -15745600 1440)\n");
        assert_eq!(read_track(cell.id, line), Ok(*cell));
    }
}

#[test]
fn each_line_is_its_cell_again() {
    let cells: Vec<Cell> = (1..=40)
        .map(|k| Cell {
            id: k * k * 1_000_003,
            x: 837_280 - 41_864 * k,
            vx: 512 - 25 * k,
            y: 7 * k - 100,
            vy: k % 3 - 1,
            expiry: 701 + k / 2,
        })
        .collect();
    let table = with(700, &cells);
    let text = table.to_tracks().expect("sound");
    assert_eq!(text.split_inclusive('\n').count(), cells.len());
    for (cell, line) in table.cells().expect("sound").zip(text.split_inclusive('\n')) {
        assert!(line.starts_with("LINESTRING M ("), "{line}");
        assert_eq!(read_track(cell.id, line), Ok(cell));
    }
}

#[test]
fn a_line_is_read_as_text_and_as_bytes() {
    let cell = Cell { id: 7, x: 50, vx: 5, y: 230, vy: -3, expiry: 40 };
    assert_eq!(read_track(7, LINE), Ok(cell));
    assert_eq!(read_track(7, String::from(LINE)), Ok(cell));
    assert_eq!(read_track(7, LINE.as_bytes()), Ok(cell));
    assert_eq!(read_track(i32::MAX, Vec::from(LINE)), Ok(Cell { id: i32::MAX, ..cell }));
    for id in [0, -1, i32::MIN] {
        assert_eq!(read_track(id, LINE), Err(Refusal::NoTrack));
    }
}

#[test]
fn no_part_of_a_line_and_no_more_than_one_is_read() {
    for length in 0..LINE.len() {
        assert_eq!(read_track(7, &LINE[..length]), Err(Refusal::NoTrack));
        assert_eq!(read_track(7, &LINE[LINE.len() - length..]), Err(Refusal::NoTrack));
    }
    assert_eq!(read_track(7, LINE.repeat(2)), Err(Refusal::NoTrack));
    assert_eq!(read_track(7, LINE.replace('\n', "\r\n")), Err(Refusal::NoTrack));
    assert_eq!(read_track(7, LINE.to_lowercase()), Err(Refusal::NoTrack));
    assert_eq!(read_track(7, [0xff; 42]), Err(Refusal::NoTrack));
    assert_eq!(read_track(7, "POINT M (2500 1100 40)\n"), Err(Refusal::NoTrack));
    assert_eq!(read_track(7, "LINESTRING M (2500 1100 40, 2500 1100 40)\n"), Err(Refusal::NoTrack));
}
