//! What a report or a drop brings up, and what becomes of the tree.

use crate::question::{Report, MINUTE};
use crate::refusal::{BEFORE_CLOCK, EXPIRES_FIRST, NOT_LIVE, OUT_OF_RANGE};
use crate::tables::families::Family;
use crate::tables::layout::HEIGHT;
use crate::tables::model::{Change, Model};
use crate::tables::reading;
use crate::tables::worlds::Cell;

/// What has to do with the minute of an expiry, and with the last minute of all.
pub(super) const ENDS_OF_LIVES: &[&str] = &[
    "put in the minute of its own expiry",
    "put in the minute of another's expiry",
    "5 before 6, expiry and minute the same",
    "6: expiry and minute the same",
    "6: at 1,440",
    "8: in the minute of the expiry",
    "8: at 1,440",
];

/// Before it is made.
pub(super) fn describe_report(
    model: &Model,
    held: &[Cell],
    report: &Report,
    number: i32,
    family: &mut Family,
) {
    family.count(format!("report {number}"));
    let minute = report.minute;
    let alike = report.expiry == minute;
    match number {
        0 => describe_put(model, held, report, family),
        OUT_OF_RANGE if minute < model.clock => family.count("4 before 5"),
        BEFORE_CLOCK if report.expiry <= minute => {
            family.count("5 before 6");
            if alike {
                family.count("5 before 6, expiry and minute the same");
            }
        }
        EXPIRES_FIRST => {
            let full = model.others(&Change::Report(*report)).len() == model.capacity as usize;
            let said = [
                (alike, "6: expiry and minute the same"),
                (minute == MINUTE, "6: at 1,440"),
                (full, "6 before 9"),
                (full && alike, "6 before 9, expiry and minute the same"),
            ];
            said.iter().filter(|(is, _)| *is).for_each(|(_, name)| family.count(*name));
        }
        _ => {}
    }
}

/// A report that is accepted.
fn describe_put(model: &Model, held: &[Cell], report: &Report, family: &mut Family) {
    let (capacity, minute) = (model.capacity as usize, report.minute);
    let live = model.live_at(minute);
    let replaces = live.iter().any(|cell| cell.id == report.id);
    let ends = |cell: &Cell| cell.expiry == minute;
    let said = [
        (replaces && live.len() == capacity, "replaced in a full table"),
        (!replaces && held.len() == capacity, "put in the room of an expired cell"),
        (!replaces && model.cells.len() == capacity, "full at the clock, not at the minute"),
        (
            model.cells.iter().any(|cell| ends(cell) && cell.id == report.id),
            "put in the minute of its own expiry",
        ),
        (
            model.cells.iter().any(|cell| ends(cell) && cell.id != report.id),
            "put in the minute of another's expiry",
        ),
    ];
    said.iter().filter(|(is, _)| *is).for_each(|(_, name)| family.count(*name));
}

/// Before it is made.
pub(super) fn describe_drop(
    model: &Model,
    held: &[Cell],
    id: i32,
    minute: i32,
    number: i32,
    family: &mut Family,
) {
    family.count(format!("drop {number}"));
    let was_held = held.iter().any(|cell| cell.id == id);
    match number {
        OUT_OF_RANGE if minute < model.clock => family.count("4 before 5"),
        BEFORE_CLOCK if !was_held => family.count("5 before 8"),
        NOT_LIVE => match model.cells.iter().find(|cell| cell.id == id) {
            Some(cell) => {
                family.count("8: live at the clock, not at the minute");
                if cell.expiry == minute {
                    family.count("8: in the minute of the expiry");
                }
                if minute == MINUTE {
                    family.count("8: at 1,440");
                }
            }
            None if was_held => family.count("8: held, but expired at the clock"),
            None => family.count("8: not held"),
        },
        _ => {}
    }
}

/// What became of the tree's nodes.
pub(super) fn describe_shape(before: &[i32], after: &[i32], drop: bool, family: &mut Family) {
    let leaves = |words: &[i32]| -> Vec<(usize, usize)> {
        let mut leaves = reading::leaves(words);
        leaves.sort_unstable();
        leaves.into_iter().map(|leaf| (leaf, reading::count(words, leaf))).collect()
    };
    let (old, new) = (leaves(before), leaves(after));
    if new.len() > old.len() {
        family.count("leaf parted");
    } else if new.len() < old.len() {
        family.count("leaves joined");
    } else if drop && old.iter().filter(|leaf| !new.contains(leaf)).count() == 2 {
        family.count("cell borrowed");
    }
    if after[HEIGHT] > before[HEIGHT] {
        family.count("root grew");
    } else if after[HEIGHT] < before[HEIGHT] {
        family.count("root gave way");
    }
    if after[HEIGHT] > 1 {
        family.count("three levels or more");
    }
}
