//! Lines whose answers are known without a computation: each trap by its name.

use super::{differs, Reading, LINE};
use crate::random::Random;
use crate::tables::families::Family;
use crate::tables::library::Library;
use crate::tables::track;
use crate::tables::worlds::Cell;
use crate::tally::Tally;

pub fn run(library: &Library, tally: &mut Tally) {
    tally.check(texts(library));
    tally.check(spellings(library));
    tally.check(numbers(library));
    tally.check(cells(library));
    tally.check(identifiers(library));
}

/// The library and the own reader must both come to what is known.
fn known(library: &Library, name: &str, reading: &Reading, random: &mut Random, family: &mut Family) {
    family.count(if reading.expected.is_some() { "cell" } else { "no cell" });
    if track::cell(reading.id, reading.line).ok() != reading.expected {
        family.wrong(format!("{name}: computed otherwise"));
    }
    family.note(differs(library, reading, random).map(|what| format!("{name}: {what}")));
}

/// The cell of `LINE`.
const ITS_CELL: Cell = Cell { id: 7, x: 50, vx: 5, y: 230, vy: -3, expiry: 40 };

/// Nothing, or something else than a line.
const NO_LINES: &[(&str, &str)] = &[
    ("no byte", ""),
    ("a line feed alone", "\n"),
    ("a zero byte alone", "\0"),
    ("a space alone", " "),
    ("the first word alone", "LINESTRING"),
    ("no points", "LINESTRING M ()\n"),
    ("an empty line string", "LINESTRING M EMPTY\n"),
    ("a line of the desk", "cell 7 100 200 5 -3 10 40\n"),
    ("a point with a measure", "POINT M (1000 2000 10)\n"),
    ("a point with a measure, of zeros", "POINT M (0 0 0)\n"),
    ("a point with a measure, where the line's own cell expires", "POINT M (2500 1100 40)\n"),
    ("a point with a measure, at 1440", "POINT M (0 0 1440)\n"),
    ("a point with the numbers of a line", "POINT M (1000 2000 10, 2500 1100 40)\n"),
    ("a line string of one point", "LINESTRING M (1000 2000 10)\n"),
    ("points", "MULTIPOINT M (1000 2000 10, 2500 1100 40)\n"),
    ("a line string among others", "MULTILINESTRING M ((1000 2000 10, 2500 1100 40))\n"),
    ("a string of arcs", "CIRCULARSTRING M (1000 2000 10, 2500 1100 40)\n"),
    ("a third point", "LINESTRING M (1000 2000 10, 2500 1100 40, 4000 200 70)\n"),
    ("a third point, empty", "LINESTRING M (1000 2000 10, 2500 1100 40, )\n"),
    ("two lines", "LINESTRING M (1000 2000 10, 2500 1100 40)\nLINESTRING M (1000 2000 10, 2500 1100 40)\n"),
];

/// The words around the numbers, nearly as they are.
const OTHER_WORDS: &[(&str, &str)] = &[
    ("no line feed", "LINESTRING M (1000 2000 10, 2500 1100 40)"),
    ("two line feeds", "LINESTRING M (1000 2000 10, 2500 1100 40)\n\n"),
    ("carriage return and line feed", "LINESTRING M (1000 2000 10, 2500 1100 40)\r\n"),
    ("line feed and carriage return", "LINESTRING M (1000 2000 10, 2500 1100 40)\n\r"),
    ("carriage return alone", "LINESTRING M (1000 2000 10, 2500 1100 40)\r"),
    ("zero byte in the line feed's place", "LINESTRING M (1000 2000 10, 2500 1100 40)\0"),
    ("zero byte before the line feed", "LINESTRING M (1000 2000 10, 2500 1100 40)\0\n"),
    ("zero byte after the line feed", "LINESTRING M (1000 2000 10, 2500 1100 40)\n\0"),
    ("zero byte before all", "\0LINESTRING M (1000 2000 10, 2500 1100 40)\n"),
    ("zero byte after a number", "LINESTRING M (1000 2000 10\0, 2500 1100 40)\n"),
    ("zero byte for a space", "LINESTRING M (1000\x002000 10, 2500 1100 40)\n"),
    ("space before all", " LINESTRING M (1000 2000 10, 2500 1100 40)\n"),
    ("line feed before all", "\nLINESTRING M (1000 2000 10, 2500 1100 40)\n"),
    ("byte order mark before all", "\u{feff}LINESTRING M (1000 2000 10, 2500 1100 40)\n"),
    ("space before the line feed", "LINESTRING M (1000 2000 10, 2500 1100 40) \n"),
    ("space after the line feed", "LINESTRING M (1000 2000 10, 2500 1100 40)\n "),
    ("semicolon at the end", "LINESTRING M (1000 2000 10, 2500 1100 40);\n"),
    ("lower case", "linestring m (1000 2000 10, 2500 1100 40)\n"),
    ("lower case but for the M", "linestring M (1000 2000 10, 2500 1100 40)\n"),
    ("lower case of the M alone", "LINESTRING m (1000 2000 10, 2500 1100 40)\n"),
    ("capitals in the middle", "LineString M (1000 2000 10, 2500 1100 40)\n"),
    ("no space before the M", "LINESTRINGM (1000 2000 10, 2500 1100 40)\n"),
    ("no space beside the M", "LINESTRINGM(1000 2000 10, 2500 1100 40)\n"),
    ("two spaces before the M", "LINESTRING  M (1000 2000 10, 2500 1100 40)\n"),
    ("two spaces after the M", "LINESTRING M  (1000 2000 10, 2500 1100 40)\n"),
    ("tab before the M", "LINESTRING\tM (1000 2000 10, 2500 1100 40)\n"),
    ("heights", "LINESTRING Z (1000 2000 10, 2500 1100 40)\n"),
    ("heights and measures", "LINESTRING ZM (1000 2000 0 10, 2500 1100 0 40)\n"),
    ("heights and measures said, measures given", "LINESTRING ZM (1000 2000 10, 2500 1100 40)\n"),
    ("no measures said", "LINESTRING (1000 2000 10, 2500 1100 40)\n"),
    ("no measures said, two spaces", "LINESTRING  (1000 2000 10, 2500 1100 40)\n"),
    ("no measures", "LINESTRING (1000 2000, 2500 1100)\n"),
    ("measures said and not given", "LINESTRING M (1000 2000, 2500 1100)\n"),
    ("a reference system before all", "SRID=3857;LINESTRING M (1000 2000 10, 2500 1100 40)\n"),
    ("quotes", "\"LINESTRING M (1000 2000 10, 2500 1100 40)\"\n"),
    ("space after the parenthesis", "LINESTRING M ( 1000 2000 10, 2500 1100 40)\n"),
    ("space before the second parenthesis", "LINESTRING M (1000 2000 10, 2500 1100 40 )\n"),
    ("two parentheses", "LINESTRING M ((1000 2000 10, 2500 1100 40))\n"),
    ("brackets", "LINESTRING M [1000 2000 10, 2500 1100 40]\n"),
    ("no first parenthesis", "LINESTRING M 1000 2000 10, 2500 1100 40)\n"),
    ("no second parenthesis", "LINESTRING M (1000 2000 10, 2500 1100 40\n"),
    ("line feed before the second parenthesis", "LINESTRING M (1000 2000 10, 2500 1100 40\n)"),
    ("comma with a space before it", "LINESTRING M (1000 2000 10 ,2500 1100 40)\n"),
    ("comma with spaces on both sides", "LINESTRING M (1000 2000 10 , 2500 1100 40)\n"),
    ("comma with two spaces", "LINESTRING M (1000 2000 10,  2500 1100 40)\n"),
    ("comma and a line feed", "LINESTRING M (1000 2000 10,\n2500 1100 40)\n"),
    ("two commas", "LINESTRING M (1000 2000 10,, 2500 1100 40)\n"),
    ("semicolon for the comma", "LINESTRING M (1000 2000 10; 2500 1100 40)\n"),
    ("no comma", "LINESTRING M (1000 2000 10 2500 1100 40)\n"),
    ("comma after the second number", "LINESTRING M (1000 2000, 10 2500 1100 40)\n"),
    ("two spaces between numbers", "LINESTRING M (1000  2000 10, 2500 1100 40)\n"),
    ("tab between numbers", "LINESTRING M (1000 2000\t10, 2500 1100 40)\n"),
    ("no-break space between numbers", "LINESTRING M (1000\u{a0}2000 10, 2500 1100 40)\n"),
    ("five numbers", "LINESTRING M (1000 2000 10, 2500 1100)\n"),
    ("seven numbers", "LINESTRING M (1000 2000 10, 2500 1100 40 0)\n"),
    ("comma without its space, as GDAL and PostGIS write it", "LINESTRING M (1000 2000 10,2500 1100 40)\n"),
    ("as GDAL and PostGIS give it, without a line feed", "LINESTRING M (1000 2000 10,2500 1100 40)"),
    ("as PostGIS writes it with a reference system", "LINESTRINGM(1000 2000 10,2500 1100 40)\n"),
    (
        "no space before the parenthesis, as SpatiaLite writes it",
        "LINESTRING M(1000 2000 10, 2500 1100 40)\n",
    ),
    ("with an M of another script", "LINESTRING \u{39c} (1000 2000 10, 2500 1100 40)\n"),
];

fn texts(library: &Library) -> bool {
    let mut random = Random::seeded(0xf500);
    let mut family = Family::named("texts that are no line, by name");
    let right = Reading { id: 7, line: LINE.as_bytes(), expected: Some(ITS_CELL) };
    known(library, "the line itself", &right, &mut random, &mut family);
    for (name, line) in NO_LINES.iter().chain(OTHER_WORDS) {
        let reading = Reading { id: 7, line: line.as_bytes(), expected: None };
        known(library, name, &reading, &mut random, &mut family);
    }
    for cut in 0..LINE.len() {
        for line in [&LINE[..cut], &LINE[cut + 1..]] {
            let reading = Reading { id: 7, line: line.as_bytes(), expected: None };
            known(library, "cut short", &reading, &mut random, &mut family);
        }
    }
    family.holds(&["no cell"], 150)
}

/// In the place of a number of a line; `#` is that number.
const SPELLINGS: &[&str] = &[
    "",
    "0#",
    "00#",
    "00000000000000000000#",
    "+#",
    "-+#",
    "+-#",
    "--#",
    "#-",
    "- #",
    "#.",
    "#.0",
    ".#",
    "#,0",
    "#e0",
    "#E0",
    "#e+0",
    "1e3",
    "0x#",
    "0b1",
    "#u",
    "#L",
    "'#'",
    "(#)",
    "1_000",
    "1'000",
    "1,000",
    "\u{2212}#",
    "\u{ff11}",
    "\u{b2}",
    "#\0",
    "\0#",
    "#\u{7f}",
    "nan",
    "inf",
    "-",
    "+",
    "NULL",
    "x",
    "#/1",
    "#0.5",
];

/// In the place of a number of a line of zeros.
const ZEROS: &[&str] = &["-0", "00", "-00", "+0", "0.0", "-0.0", "000000000", "0e0", "O", "o", "-", ""];

fn spellings(library: &Library) -> bool {
    let mut random = Random::seeded(0xf600);
    let mut family = Family::named("other spellings of numbers");
    let lines = [["1000", "2000", "10", "2500", "1100", "40"], ["-10", "-20", "1", "-70", "100", "4"]];
    for numbers in lines {
        for place in 0..6 {
            for spelling in SPELLINGS {
                let spelt = spelling.replace('#', numbers[place]);
                other_spelling(library, numbers, place, &spelt, &mut random, &mut family);
            }
        }
    }
    for place in 0..5 {
        for spelling in ZEROS {
            other_spelling(
                library,
                ["0", "0", "0", "0", "0", "1"],
                place,
                spelling,
                &mut random,
                &mut family,
            );
        }
    }
    family.holds(&["no cell"], 400)
}

fn other_spelling(
    library: &Library,
    numbers: [&str; 6],
    place: usize,
    spelt: &str,
    random: &mut Random,
    family: &mut Family,
) {
    let mut numbers = numbers.map(str::to_string);
    numbers[place] = spelt.to_string();
    let line = super::spelt(&numbers);
    let name = format!("number {place} as {spelt:?}");
    known(library, &name, &Reading { id: 7, line: &line, expected: None }, random, family);
}

/// Of the right form, and no cell's.
const NO_TRACKS: &[(&str, &str)] = &[
    ("equal minutes", "LINESTRING M (1000 2000 10, 1000 2000 10)\n"),
    ("equal minutes, other places", "LINESTRING M (1000 2000 10, 2500 1100 10)\n"),
    ("equal minutes at 0", "LINESTRING M (0 0 0, 0 0 0)\n"),
    ("equal minutes at 1440", "LINESTRING M (0 0 1440, 0 0 1440)\n"),
    ("the second minute before the first", "LINESTRING M (2500 1100 40, 1000 2000 10)\n"),
    ("the second minute one before the first", "LINESTRING M (0 0 1, 0 0 0)\n"),
    ("first minute -1", "LINESTRING M (0 0 -1, 0 0 0)\n"),
    ("both minutes below 0", "LINESTRING M (0 0 -2, 0 0 -1)\n"),
    ("second minute 1441", "LINESTRING M (0 0 1440, 0 0 1441)\n"),
    ("second minute 1441, first 0", "LINESTRING M (0 0 0, 0 0 1441)\n"),
    ("x a metre off at first", "LINESTRING M (1001 2000 10, 2500 1100 40)\n"),
    ("x a metre off at last", "LINESTRING M (1000 2000 10, 2499 1100 40)\n"),
    ("x five metres off at both", "LINESTRING M (1005 2000 10, 2505 1100 40)\n"),
    ("y nine metres off at both", "LINESTRING M (1000 2009 10, 2500 1109 40)\n"),
    ("x whole and y not", "LINESTRING M (1000 2000 10, 2500 1101 40)\n"),
    ("x below 0 and a metre off", "LINESTRING M (-1 0 0, 0 0 1)\n"),
    ("units and not metres", "LINESTRING M (101 202 10, 251 112 40)\n"),
    ("x velocity half a unit", "LINESTRING M (0 0 0, 10 0 2)\n"),
    ("y velocity half a unit below 0", "LINESTRING M (0 0 0, 0 -10 2)\n"),
    ("x velocity whole and y velocity a third", "LINESTRING M (0 0 0, 30 10 3)\n"),
    ("x velocity 4 and 29 parts of 30", "LINESTRING M (1000 2000 10, 2490 1100 40)\n"),
    ("velocity in whole metres and not units", "LINESTRING M (0 0 0, 20 0 4)\n"),
    ("x velocity 513", "LINESTRING M (0 0 0, 5130 0 1)\n"),
    ("x velocity -513", "LINESTRING M (0 0 0, -5130 0 1)\n"),
    ("y velocity 513", "LINESTRING M (0 0 0, 0 5130 1)\n"),
    ("y velocity -513", "LINESTRING M (0 0 0, 0 -5130 1)\n"),
    ("y velocity 513 over the day", "LINESTRING M (0 0 0, 0 7387200 1440)\n"),
    ("x kept at 837281", "LINESTRING M (1005130 0 1439, 1000010 0 1440)\n"),
    ("x kept at 837281 from minute 0", "LINESTRING M (8372810 0 0, 8372810 0 1440)\n"),
    ("x kept at -837281", "LINESTRING M (-8372810 0 0, -8372810 0 1)\n"),
    ("y kept at 837281", "LINESTRING M (0 8372810 0, 0 8372810 1)\n"),
    ("y kept at -837281", "LINESTRING M (0 -1005130 1439, 0 -1000010 1440)\n"),
    ("x at 2147483640 metres", "LINESTRING M (2147483640 0 0, 2147483640 0 1)\n"),
    ("x at 4294967300 metres, 4 in 32 bits", "LINESTRING M (4294967300 0 0, 4294967300 0 1)\n"),
    ("first minute 4294967306, 10 in 32 bits", "LINESTRING M (1000 2000 4294967306, 2500 1100 40)\n"),
    ("x at 18446744073709551620 metres, 4 in 64 bits", "LINESTRING M (18446744073709551620 0 0, 10 0 1)\n"),
];

fn numbers(library: &Library) -> bool {
    let mut random = Random::seeded(0xf700);
    let mut family = Family::named("numbers that give no cell, by name");
    for (name, line) in NO_TRACKS {
        let reading = Reading { id: 7, line: line.as_bytes(), expected: None };
        known(library, name, &reading, &mut random, &mut family);
    }
    family.holds(&["no cell"], 30)
}

/// A name, a line, and x, x velocity, y, y velocity and expiry of the cell.
const TRACKS: &[(&str, &str, [i32; 5])] = &[
    ("the first of the manual", LINE, [50, 5, 230, -3, 40]),
    ("the second of the manual", "LINESTRING M (0 0 10, 600 600 30)\n", [-30, 3, -30, 3, 30]),
    ("the shortest", "LINESTRING M (0 0 0, 0 0 1)\n", [0, 0, 0, 0, 1]),
    ("still all day", "LINESTRING M (10 -10 0, 10 -10 1440)\n", [1, 0, -1, 0, 1440]),
    ("still in the minute before 1440", "LINESTRING M (0 0 1439, 0 0 1440)\n", [0, 0, 0, 0, 1440]),
    ("velocity 1 and -1", "LINESTRING M (0 0 0, 10 -10 1)\n", [0, 1, 0, -1, 1]),
    ("velocity 512", "LINESTRING M (0 0 0, 5120 5120 1)\n", [0, 512, 0, 512, 1]),
    ("velocity -512", "LINESTRING M (0 0 0, -5120 -5120 1)\n", [0, -512, 0, -512, 1]),
    ("velocity 512 all day", "LINESTRING M (0 0 0, 7372800 -7372800 1440)\n", [0, 512, 0, -512, 1440]),
    (
        "from the ends of the reported range",
        "LINESTRING M (1000000 -1000000 0, 1000010 -1000010 1)\n",
        [100_000, 1, -100_000, -1, 1],
    ),
    ("kept at 837280", "LINESTRING M (1005120 0 1439, 1000000 0 1440)\n", [837_280, -512, 0, 0, 1440]),
    (
        "kept at 837280, outside the reported range at both",
        "LINESTRING M (1010240 0 1438, 1005120 0 1439)\n",
        [837_280, -512, 0, 0, 1439],
    ),
    ("y kept at -837280", "LINESTRING M (0 -1005120 1439, 0 -1000000 1440)\n", [0, 0, -837_280, 512, 1440]),
    (
        "kept at both ends from minute 0",
        "LINESTRING M (8372800 -8372800 0, 8372800 -8372800 1440)\n",
        [837_280, 0, -837_280, 0, 1440],
    ),
    (
        "as far as a track goes",
        "LINESTRING M (8372800 8372800 0, 15745600 15745600 1440)\n",
        [837_280, 512, 837_280, 512, 1440],
    ),
    (
        "the longest",
        "LINESTRING M (-13492800 -13492800 1000, -15745600 -15745600 1440)\n",
        [-837_280, -512, -837_280, -512, 1440],
    ),
    (
        "the longest, in the minute before its expiry",
        "LINESTRING M (-15740480 -15740480 1439, -15745600 -15745600 1440)\n",
        [-837_280, -512, -837_280, -512, 1440],
    ),
    ("through 0", "LINESTRING M (-50 50 5, 50 -50 15)\n", [-10, 1, 10, -1, 15]),
];

const IDENTIFIERS: [i32; 8] = [1, 2, 7, 256, 999_999_999, 1_000_000_000, i32::MAX - 1, i32::MAX];

const NO_IDENTIFIERS: [i32; 6] = [0, -1, -7, i32::MIN, i32::MIN + 1, -i32::MAX];

fn cells(library: &Library) -> bool {
    let mut random = Random::seeded(0xf800);
    let mut family = Family::named("lines that give cells, by name");
    for &(name, line, [x, vx, y, vy, expiry]) in TRACKS {
        for id in IDENTIFIERS {
            let expected = Some(Cell { id, x, vx, y, vy, expiry });
            let reading = Reading { id, line: line.as_bytes(), expected };
            known(library, name, &reading, &mut random, &mut family);
        }
    }
    family.holds(&["cell"], 100)
}

/// With a right line, and with wrong ones.
fn identifiers(library: &Library) -> bool {
    let mut random = Random::seeded(0xf900);
    let mut family = Family::named("identifiers of no cell");
    let right = TRACKS.iter().map(|&(name, line, _)| (name, line));
    let wrong = NO_TRACKS.iter().chain(NO_LINES).copied();
    for (name, line) in right.chain(wrong) {
        for id in NO_IDENTIFIERS {
            let reading = Reading { id, line: line.as_bytes(), expected: None };
            known(library, &format!("{name}, with {id}"), &reading, &mut random, &mut family);
        }
    }
    for id in IDENTIFIERS {
        let reading = Reading { id, line: b"", expected: None };
        known(library, &format!("no byte, with {id}"), &reading, &mut random, &mut family);
    }
    family.holds(&["no cell"], 300)
}
