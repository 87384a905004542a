//! A run of the desk: its input, and what it must print.

use super::ends;
use super::model::{Desk, Reply};
use super::program::{output, Feeding};
use crate::random::Random;
use std::collections::BTreeMap;
use std::path::Path;

#[derive(Default)]
pub struct Session {
    pub input: Vec<u8>,
    pub expected: Vec<u8>,
    /// Replies by their kinds, and lines that have names.
    pub counts: BTreeMap<String, u32>,
}

/// A reply by its kind: the count of hits is told roughly.
fn kind_of(reply: &Reply) -> String {
    match reply {
        Reply::Bad => "bad".to_string(),
        Reply::Ok => "ok".to_string(),
        Reply::No(number) => format!("no {number}"),
        Reply::Hits(ids) => match ids.len() {
            0 => "hits 0".to_string(),
            256 => "hits 256".to_string(),
            _ => "hits".to_string(),
        },
    }
}

impl Session {
    /// So many lines, each made with a look at the desk as it is then.
    pub fn made(random: &mut Random, lines: usize, next: fn(&mut Random, &Desk) -> Vec<u8>) -> Session {
        let mut session = Session::default();
        let mut desk = Desk::fresh();
        for _ in 0..lines {
            let line = next(random, &desk);
            session.add(&mut desk, &line);
        }
        if random.coin() {
            session.without_last_feed();
        }
        session
    }

    pub fn add(&mut self, desk: &mut Desk, line: &[u8]) {
        assert!(!line.contains(&b'\n'), "one line at a time");
        let named = ends::name(desk, line).map(str::to_string);
        let reply = desk.reply(line);
        for what in named.into_iter().chain([kind_of(&reply)]) {
            *self.counts.entry(what).or_insert(0) += 1;
        }
        self.input.extend_from_slice(line);
        self.input.push(b'\n');
        self.expected.extend_from_slice(reply.line().as_bytes());
    }

    /// A last line that is not empty may stand without its line feed.
    fn without_last_feed(&mut self) {
        if !self.input.ends_with(b"\n\n") && self.input.len() > 1 {
            self.input.pop();
        }
    }

    /// Whether the program prints what it must; if not, the first difference is shown.
    pub fn agrees(&self, program: &Path, name: &str, feeding: Feeding, seed: u64) -> bool {
        match output(program, &self.input, feeding, seed) {
            Ok(written) if written == self.expected => true,
            Ok(written) => {
                self.show(name, feeding, &written);
                false
            }
            Err(error) => {
                println!("FAILED {name}, {feeding:?}: {error}");
                false
            }
        }
    }

    fn show(&self, name: &str, feeding: Feeding, written: &[u8]) {
        let mut lines = self.input.split(|&byte| byte == b'\n');
        let mut expected = self.expected.split(|&byte| byte == b'\n');
        let mut printed = written.split(|&byte| byte == b'\n');
        for number in 1.. {
            let (line, right, given) = (lines.next(), expected.next(), printed.next());
            if right != given || right.is_none() {
                println!(
                    "WRONG {name}, {feeding:?}, line {number}: {}: printed {}, expected {}",
                    shown(line),
                    shown(given),
                    shown(right)
                );
                return;
            }
        }
    }
}

fn shown(bytes: Option<&[u8]>) -> String {
    bytes.map_or("nothing".to_string(), |bytes| format!("`{}`", bytes.escape_ascii()))
}
