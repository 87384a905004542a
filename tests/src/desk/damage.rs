//! Lines that are nearly right, and lines that look odd and are right.

use super::line::{Line, LONGEST};
use crate::random::Random;

/// One thing about the line is changed, most often so that it is no form.
pub fn damaged(random: &mut Random, line: &Line) -> Vec<u8> {
    match random.between(0, 5) {
        0 => reparted(random, &line.fields()),
        1 => with_field(random, line.fields()),
        2 => with_byte(random, line.bytes()),
        3 => overlong(random, line.bytes()),
        4 => anything(random),
        _ => respelt(random, line.fields()),
    }
}

/// Fields parted by something other than one space, or with something before or after them.
fn reparted(random: &mut Random, fields: &[String]) -> Vec<u8> {
    let parts = ["  ", "\t", ",", "\r", "\0", "", " \t", "\u{a0}"];
    let part = parts[random.place(parts.len())];
    match random.between(0, 3) {
        0 => format!("{part}{}", fields.join(" ")).into_bytes(),
        1 => format!("{}{part}", fields.join(" ")).into_bytes(),
        2 => fields.join(part).into_bytes(),
        _ => {
            let cut = random.between(1, fields.len() as i32 - 1) as usize;
            format!("{}{part}{}", fields[..cut].join(" "), fields[cut..].join(" ")).into_bytes()
        }
    }
}

/// A field too few, a field too many, or one that is no number.
fn with_field(random: &mut Random, mut fields: Vec<String>) -> Vec<u8> {
    let at = random.place(fields.len());
    let odd = [
        "+1",
        "--1",
        "-",
        "1-",
        "1234567890",
        "-1234567890",
        "0x1",
        "1.0",
        "1e3",
        "",
        "one",
        "-+1",
        "\u{661}",
    ];
    let field = odd[random.place(odd.len())].to_string();
    match random.between(0, 4) {
        0 => drop(fields.remove(at)),
        1 => fields.insert(at, "1".to_string()),
        2 => fields.push(field),
        3 => fields[at] = fields[at].to_uppercase(),
        _ => fields[at] = field,
    }
    fields.join(" ").into_bytes()
}

/// Numbers with leading zeros and -0, which are right up to nine digits.
fn respelt(random: &mut Random, mut fields: Vec<String>) -> Vec<u8> {
    for field in fields.iter_mut().skip(1) {
        let (sign, digits) = match field.strip_prefix('-') {
            Some(digits) => ("-", digits.to_string()),
            None if field == "0" && random.coin() => ("-", field.clone()),
            None => ("", field.clone()),
        };
        let width = if random.between(0, 60) == 0 { 10 } else { random.between(1, 9) as usize };
        *field = format!("{sign}{digits:0>width$}");
    }
    fields.join(" ").into_bytes()
}

/// A byte put in, taken out or changed.
fn with_byte(random: &mut Random, mut line: Vec<u8>) -> Vec<u8> {
    let at = random.place(line.len());
    let byte = any_byte(random);
    match random.between(0, 2) {
        0 => line.insert(at, byte),
        1 => drop(line.remove(at)),
        _ => line[at] = byte,
    }
    line
}

/// A right line with more behind it, often just as long as a line may be or one byte longer.
fn overlong(random: &mut Random, mut line: Vec<u8>) -> Vec<u8> {
    let lengths = [LONGEST - 1, LONGEST, LONGEST + 1, LONGEST + 2, 300, 5_000];
    let length = lengths[random.place(lengths.len())];
    let filling = if random.coin() { b'0' } else { b' ' };
    line.resize(length.max(line.len()), filling);
    line
}

fn anything(random: &mut Random) -> Vec<u8> {
    let length = random.between(0, 140);
    (0..length).map(|_| any_byte(random)).collect()
}

/// Any byte but a line feed.
fn any_byte(random: &mut Random) -> u8 {
    match random.between(0, 255) as u8 {
        b'\n' => b' ',
        byte => byte,
    }
}
