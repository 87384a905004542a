//! Compares the desk program with a plain list of cells, byte by byte: desk PROGRAM

use outside::desk::families::{Family, FAMILIES};
use outside::desk::limits::{
    closed_input, closed_output, endless_line, failed_read, long_talk, refused_last_answer,
};
use outside::desk::model::Desk;
use outside::desk::program::Feeding;
use outside::desk::session::Session;
use outside::random::Random;
use outside::tally::Tally;
use std::collections::BTreeMap;
use std::io;
use std::path::{Path, PathBuf};
use std::process::ExitCode;

/// How many lines of a family must bring up each reply, and have each name, that it is meant to bring up.
const FEWEST: u32 = 50;

/// Every byte by itself takes a while, so it is kept to short runs.
const SHORT: usize = 20_000;

const GIVEN: [(&str, &str); 11] = [
    ("cell 7 100 200 5 -3 10 40", "ok"),
    ("cell 9 0 0 3 3 10 30", "ok"),
    ("when 20 20 150 150 170 170", "hits 1 7"),
    ("when 10 11 1 1 1 1", "hits 1 9"),
    ("when 9 11 0 1 0 1", "no 5"),
    ("drop 9 31", "no 8"),
    ("when 10 10 0 0 0 0", "hits 1 9"),
    ("cell 9 0 0 0 0 12 11", "no 6"),
    ("drop 7 12", "ok"),
    ("when 12 40 -500 500 -500 500", "hits 1 9"),
    ("when 40 12 0 1 0 1", "no 7"),
];

/// Lives that end, with answers worked out by hand. Cell 7 comes to (250, 110) at its expiry, and to x
/// 249 a fifth of a minute before it.
const LIVES_THAT_END: [(&str, &str); 26] = [
    ("cell 7 100 200 5 -3 10 40", "ok"),
    ("when 40 40 250 250 110 110", "hits 0"),
    ("when 39 39 245 245 113 113", "hits 1 7"),
    ("when 39 40 250 250 110 110", "hits 0"),
    ("when 39 40 249 249 108 112", "hits 1 7"),
    ("when 39 50 249 300 0 200", "hits 1 7"),
    ("when 40 50 249 300 0 200", "hits 0"),
    ("move 30 40 200 200 140 140 250 250 110 110", "hits 1 7"),
    ("move 39 40 300 300 110 110 250 250 110 110", "hits 0"),
    ("drop 7 40", "no 8"),
    ("cell 8 0 0 0 0 10 10", "no 6"),
    ("cell 8 0 0 0 0 9 9", "no 5"),
    ("cell 8 0 0 0 0 10 11", "ok"),
    ("when 10 10 0 0 0 0", "hits 1 8"),
    ("when 11 11 0 0 0 0", "hits 0"),
    ("drop 8 11", "no 8"),
    ("cell 8 5 5 0 0 11 12", "ok"),
    ("when 11 11 -9 9 -9 9", "hits 1 8"),
    ("cell 9 5 5 0 0 12 1440", "ok"),
    ("when 12 12 -9 9 -9 9", "hits 1 9"),
    ("cell 7 250 110 0 0 40 41", "ok"),
    ("when 40 40 250 250 110 110", "hits 1 7"),
    ("cell 3 0 0 0 0 1440 1440", "no 6"),
    ("drop 9 1440", "no 8"),
    ("when 1439 1440 5 5 5 5", "hits 1 9"),
    ("when 1440 1440 5 5 5 5", "hits 0"),
];

/// Lines with answers that are known: the list of cells is right about them, and so is the program,
/// however it is fed.
fn known_run(program: &Path, name: &str, lines: &[(String, String)]) -> bool {
    let mut desk = Desk::fresh();
    let mut session = Session::default();
    let mut given = String::new();
    for (line, answer) in lines {
        session.add(&mut desk, line.as_bytes());
        given += &format!("{answer}\n");
    }
    let feedings = [Feeding::Whole, Feeding::Pieces, Feeding::Bytes, Feeding::Talk];
    session.expected == given.as_bytes()
        && feedings.iter().all(|&feeding| session.agrees(program, name, feeding, 1))
}

fn given(lines: &[(&str, &str)]) -> Vec<(String, String)> {
    lines.iter().map(|(line, answer)| (line.to_string(), answer.to_string())).collect()
}

/// 256 cells that all expire at minute 5: there is no room for another in the minute before, and room
/// for 256 others in that very minute, which are then listed alone.
fn a_full_table_replaced() -> Vec<(String, String)> {
    let put = |id: i32, minute: i32| format!("cell {id} {id} 0 0 0 {minute} {}", 5 * (minute / 5 + 1));
    let listed = |ids: std::ops::RangeInclusive<i32>| ids.map(|id| format!(" {id}")).collect::<String>();
    let mut lines: Vec<(String, String)> = (1..=256).map(|id| (put(id, 0), "ok".to_string())).collect();
    let mut add = |line: String, answer: &str| lines.push((line, answer.to_string()));
    add(put(300, 4), "no 9");
    add("when 4 4 0 999 0 0".to_string(), &format!("hits 256{}", listed(1..=256)));
    add("when 5 5 0 999 0 0".to_string(), "hits 0");
    // New identifiers first, so that the first one needs the room of another.
    (201..=456).rev().for_each(|id| add(put(id, 5), "ok"));
    add(put(500, 5), "no 9");
    add(put(201, 5), "ok");
    add("when 5 5 0 999 0 0".to_string(), &format!("hits 256{}", listed(201..=456)));
    lines
}

fn family_agrees(program: &Path, family: &Family, seed: u64) -> bool {
    let mut counts: BTreeMap<String, u32> = BTreeMap::new();
    let mut wrong = 0;
    for run in 0..family.sessions {
        let mut random = Random::seeded(seed + run);
        let session = Session::made(&mut random, family.lines, family.next);
        let feeding = match run % 4 {
            0 => Feeding::Talk,
            1 => Feeding::Whole,
            _ => Feeding::Pieces,
        };
        wrong += u32::from(!session.agrees(program, family.name, feeding, seed + run));
        for (what, count) in session.counts {
            *counts.entry(what).or_insert(0) += count;
        }
    }
    println!("desk, {}: {counts:?}; {wrong} of {} runs wrong", family.name, family.sessions);
    wrong == 0 && all_came_up(family, &counts)
}

fn all_came_up(family: &Family, counts: &BTreeMap<String, u32>) -> bool {
    let rare = |what: &&&str| counts.get(**what).is_none_or(|&count| count < FEWEST);
    let missing: Vec<_> = family.meant.iter().filter(rare).collect();
    if !missing.is_empty() {
        println!("FAILED {}: under {FEWEST} lines of {missing:?}", family.name);
    }
    missing.is_empty()
}

/// Each byte by itself, in runs of every family.
fn byte_by_byte(program: &Path) -> bool {
    FAMILIES.iter().all(|family| {
        let mut random = Random::seeded(0x6000);
        let mut session = Session::made(&mut random, 300, family.next);
        if session.input.len() > SHORT {
            session = Session::made(&mut random, 50, family.next);
        }
        session.agrees(program, family.name, Feeding::Bytes, 0)
    })
}

/// Nothing at all is no line; one byte is.
fn ends_of_input(program: &Path) -> bool {
    let cases: [(&str, &str); 6] = [
        ("", ""),
        ("\n", "bad\n"),
        ("x", "bad\n"),
        ("\n\n", "bad\nbad\n"),
        ("x\ny", "bad\nbad\n"),
        ("\r\n", "bad\n"),
    ];
    cases.iter().all(|(input, expected)| {
        let session = Session {
            input: input.as_bytes().to_vec(),
            expected: expected.as_bytes().to_vec(),
            ..Session::default()
        };
        session.agrees(program, "ends of input", Feeding::Whole, 0)
    })
}

fn held(name: &str, result: io::Result<bool>) -> bool {
    let holds = result.unwrap_or_else(|error| {
        println!("{error}");
        false
    });
    if !holds {
        println!("FAILED {name}");
    }
    holds
}

fn main() -> ExitCode {
    let program = PathBuf::from(std::env::args_os().nth(1).expect("desk PROGRAM"));
    let program = program.as_path();
    let mut tally = Tally::default();
    let known = [
        ("given run", given(&GIVEN)),
        ("lives that end", given(&LIVES_THAT_END)),
        ("a full table replaced", a_full_table_replaced()),
    ];
    for (name, lines) in known {
        tally.check(held(name, Ok(known_run(program, name, &lines))));
    }
    tally.check(held("ends of input", Ok(ends_of_input(program))));
    for (place, family) in FAMILIES.iter().enumerate() {
        tally.check(family_agrees(program, family, 0x5000 + 100 * place as u64));
    }
    tally.check(held("byte by byte", Ok(byte_by_byte(program))));
    tally.check(held("endless line", endless_line(program)));
    tally.check(held("long talk", Ok(long_talk(program))));
    tally.check(held("closed output", closed_output(program)));
    tally.check(held("refused last answer", refused_last_answer(program)));
    tally.check(held("closed input", closed_input(program)));
    tally.check(held("failed read", failed_read(program)));
    tally.report()
}
