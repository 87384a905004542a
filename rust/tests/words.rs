//! Tables over words of every kind, borrowed and owned; words that are no table; sheets there and back.

use bradawlet::{
    judge_sheet, longest_tracks, sheet_length, words_for, Cell, Hits, Moving, NotListed, Rectangle, Refusal,
    Report, Table, Window, LAYOUT, LONGEST_TRACK, MOST_CELLS,
};

const EVERYWHERE: Rectangle = Rectangle { xlow: -100_000, xhigh: 100_000, ylow: -100_000, yhigh: 100_000 };
const LATER: Window = Window { start: 20, end: 40, rectangle: EVERYWHERE };
const ALONG: Moving = Moving { start: 20, end: 40, first: EVERYWHERE, last: EVERYWHERE };

/// Neither 0 nor what a fresh table has in any word.
const RUBBISH: i32 = 0x5a5a_5a5a;

fn report(id: i32) -> Report {
    Report { id, x: 10 * id, y: -10 * id, vx: id % 7, vy: id % 5, minute: 20, expiry: 40 + id }
}

/// What a table keeps of it.
fn kept(id: i32) -> Cell {
    let Report { x, y, vx, vy, expiry, .. } = report(id);
    Cell { id, x: x - vx * 20, vx, y: y - vy * 20, vy, expiry }
}

/// Puts cells in, in falling order, and asks in every way.
fn serves<W: AsRef<[i32]> + AsMut<[i32]>>(mut table: Table<W>, cells: i32) {
    for id in (1..=cells).rev() {
        table.report(&report(id)).expect("there is room");
    }
    assert_eq!(table.report(&report(cells + 1)), Err(Refusal::Full));
    answers(&table, cells);
    table.drop_cell(1, 20).expect("it is live");
    assert_eq!(table.cells().expect("sound").next().map(|cell| cell.id), (cells > 1).then_some(2));
}

fn answers<W: AsRef<[i32]>>(table: &Table<W>, cells: i32) {
    let ids: Vec<i32> = (1..=cells).collect();
    assert_eq!(table.window(&LATER).expect("accepted").ids, ids);
    assert_eq!(table.moving(&ALONG).expect("accepted").ids, ids);
    let mut list = vec![RUBBISH; ids.len() + 1];
    let Hits { ids: listed, opened } = table.window_into(&LATER, &mut list).expect("room enough");
    assert_eq!(listed, ids);
    assert!(opened >= 1);
    assert_eq!(list[ids.len()], RUBBISH);
    let live: Vec<Cell> = table.cells().expect("sound").collect();
    assert_eq!(live, ids.iter().map(|&id| kept(id)).collect::<Vec<Cell>>());
}

#[test]
fn tables_are_made_in_words_of_every_kind() {
    serves(Table::new(40).expect("owned"), 40);
    serves(Table::fresh(vec![RUBBISH; words_for(9)], 9).expect("a vector"), 9);
    serves(Table::fresh(vec![RUBBISH; words_for(9)].into_boxed_slice(), 9).expect("a box"), 9);
    serves(Table::fresh([RUBBISH; words_for(1)], 1).expect("an array"), 1);
    let mut lent = [RUBBISH; words_for(9) + 5];
    serves(Table::fresh(&mut lent[..], 9).expect("a lent slice"), 9);
    serves(Table::fresh(&mut lent, 8).expect("a lent array"), 8);
    assert_eq!(lent[words_for(9)..], [RUBBISH; 5]);
}

#[test]
fn tables_go_to_other_threads() {
    let table = Table::new(8).expect("owned");
    let live = std::thread::scope(|threads| {
        let first = threads.spawn(|| table.cells().expect("sound").count());
        let second = threads.spawn(|| table.window(&LATER).expect("accepted").ids.len());
        first.join().expect("it ends") + second.join().expect("it ends")
    });
    assert_eq!(live, 0);
    assert_eq!(std::thread::spawn(move || table.into_words().len()).join().expect("it ends"), words_for(8));
}

#[test]
fn words_are_a_table_again() {
    let mut table = Table::new(8).expect("owned");
    table.report(&report(3)).expect("there is room");
    let mut words = table.clone().into_words();
    assert_eq!(words, table.words());
    assert_eq!(Table::over(&words[..]).expect("to be read").cells().expect("sound").count(), 1);
    Table::over(&mut words).expect("to be written").drop_cell(3, 21).expect("it is live");
    assert_eq!(Table::over(words).expect("owned").cells().expect("sound").count(), 0);
    assert_eq!(table.cells().expect("a copy was changed, not this one").count(), 1);
}

#[test]
fn a_capacity_that_there_is_not_is_refused_however_large() {
    for cells in [0, 257, 1 << 20, i32::MAX as usize + 2, 1 << 32, (1 << 32) + 8, usize::MAX] {
        assert_eq!(Table::new(cells).map(drop), Err(Refusal::BadCapacity));
        assert_eq!(Table::new_from_sheet(cells, &[]).map(drop), Err(Refusal::BadCapacity));
        assert_eq!(Table::fresh(&mut [][..], cells).map(drop), Err(Refusal::BadCapacity));
    }
    assert_eq!(Table::fresh(&mut [][..], 8).map(drop), Err(Refusal::ShortTable));
}

#[test]
fn sizes_are_those_of_the_requirements() {
    assert_eq!((words_for(1), words_for(256), MOST_CELLS), (112, 12_400, 256));
    assert_eq!((sheet_length(0), sheet_length(1), sheet_length(256)), (16, 40, 6_160));
    assert_eq!((longest_tracks(0), LONGEST_TRACK, longest_tracks(256)), (0, 66, 16_896));
    let most = usize::MAX;
    assert_eq!((words_for(most), sheet_length(most), longest_tracks(most)), (most, most, most));
    assert_eq!(LAYOUT, 1);
}

/// Every word in turn made another.
fn damages(sound: &[i32]) -> impl Iterator<Item = Vec<i32>> + '_ {
    const OTHERS: [i32; 7] = [-1, 0, 1, 9, RUBBISH, i32::MIN, i32::MAX];
    (0..sound.len() * OTHERS.len()).map(move |which| {
        let mut words = sound.to_vec();
        words[which / OTHERS.len()] = OTHERS[which % OTHERS.len()];
        words
    })
}

#[test]
fn words_that_are_no_table_give_no_iterator() {
    let mut table = Table::new(8).expect("owned");
    table.report(&report(3)).expect("there is room");
    assert_eq!(Table::over(&[][..]).map(drop), Err(Refusal::NotSound));
    let (mut refused, mut sound) = (0, 0);
    for mut words in damages(table.words()) {
        match Table::over(&mut words[..]) {
            Ok(mut table) => {
                assert!(table.cells().expect("it was tested").count() <= 8);
                assert_eq!(judge_sheet(&table.to_sheet().expect("it was tested")), Ok(()));
                assert!(table.to_tracks().expect("it was tested").len() <= longest_tracks(8));
                assert_ne!(table.report(&report(4)), Err(Refusal::NotSound));
                sound += 1;
            }
            Err(refusal) => {
                assert_eq!(refusal, Refusal::NotSound);
                refused += 1;
            }
        }
    }
    assert!(refused > 50 && sound > 50, "{refused} refused, {sound} sound");
}

/// Its words are other words the second time.
struct Fickle {
    asked: std::cell::Cell<u32>,
    sound: Vec<i32>,
}

impl AsRef<[i32]> for Fickle {
    fn as_ref(&self) -> &[i32] {
        self.asked.set(self.asked.get() + 1);
        match self.asked.get() {
            1 => &self.sound,
            _ => &self.sound[1..],
        }
    }
}

#[test]
fn words_that_stop_being_a_table_are_refused_by_every_call_that_reads() {
    let words = Table::new(1).expect("owned").into_words();
    let table = Table::over(Fickle { asked: Default::default(), sound: words }).expect("sound at first");
    assert_eq!(table.cells().map(drop), Err(Refusal::NotSound));
    assert_eq!(table.cells_after(5).map(drop), Err(Refusal::NotSound));
    assert_eq!(table.window(&LATER).map(drop), Err(Refusal::NotSound));
    assert_eq!(table.moving(&ALONG).map(drop), Err(Refusal::NotSound));
    let refused = NotListed { refusal: Refusal::NotSound, hits: 0 };
    assert_eq!(table.window_into(&LATER, &mut []).map(drop), Err(refused));
    assert_eq!(table.moving_into(&ALONG, &mut []).map(drop), Err(refused));
    assert_eq!(table.to_sheet(), Err(Refusal::NotSound));
    assert_eq!(table.write_sheet(&mut []), Err(Refusal::NotSound));
    assert_eq!(table.to_tracks(), Err(Refusal::NotSound));
    assert_eq!(table.write_tracks(&mut []), Err(Refusal::NotSound));
}

#[test]
fn the_iterator_goes_on_from_any_identifier_and_ends_for_good() {
    let mut table = Table::new(8).expect("owned");
    for id in [2, 5, i32::MAX] {
        table.report(&Report { id, expiry: 40, ..report(1) }).expect("there is room");
    }
    let after = |last| table.cells_after(last).expect("sound").map(|cell| cell.id).collect::<Vec<i32>>();
    assert_eq!(after(i32::MIN), [2, 5, i32::MAX]);
    assert_eq!(after(2), [5, i32::MAX]);
    assert_eq!(after(i32::MAX), []);
    let mut cells = table.cells().expect("sound");
    assert_eq!(cells.by_ref().count(), 3);
    assert_eq!((cells.next(), cells.next()), (None, None));
}

#[test]
fn sheets_go_there_and_back() {
    let mut table = Table::new(256).expect("owned");
    for id in (1..=256).rev() {
        table.report(&report(id)).expect("there is room");
    }
    let sheet = table.to_sheet().expect("sound");
    assert_eq!(sheet.len(), sheet_length(256));
    assert_eq!(judge_sheet(&sheet), Ok(()));
    let owned = Table::new_from_sheet(256, &sheet).expect("well formed");
    answers(&owned, 256);
    let mut lent = vec![RUBBISH; words_for(256) + 1];
    let read = Table::from_sheet(&mut lent[..], 256, &sheet).expect("well formed");
    assert_eq!(read.to_sheet(), Ok(sheet.clone()));
    assert_eq!(lent[words_for(256)], RUBBISH);
    let mut bytes = vec![0xa5; sheet.len() + 1];
    assert_eq!(owned.write_sheet(&mut bytes), Ok(sheet.len()));
    assert_eq!((&bytes[..sheet.len()], bytes[sheet.len()]), (&sheet[..], 0xa5));
}

/// Every bit in turn turned over.
fn turned(sheet: &[u8]) -> impl Iterator<Item = Vec<u8>> + '_ {
    (0..8 * sheet.len()).map(move |bit| {
        let mut bytes = sheet.to_vec();
        bytes[bit / 8] ^= 1 << (bit % 8);
        bytes
    })
}

#[test]
fn damaged_sheets_are_refused_or_read_and_written_alike() {
    let mut table = Table::new(3).expect("owned");
    for id in 1..=3 {
        table.report(&report(id)).expect("there is room");
    }
    let (mut refused, mut read) = (0, 0);
    for bytes in turned(&table.to_sheet().expect("sound")) {
        match Table::new_from_sheet(3, &bytes) {
            Ok(table) => {
                assert_eq!(table.to_sheet(), Ok(bytes));
                read += 1;
            }
            Err(refusal) => {
                assert_eq!(judge_sheet(&bytes), Err(refusal));
                refused += 1;
            }
        }
    }
    assert!(refused > 50 && read > 50, "{refused} refused, {read} read");
}
