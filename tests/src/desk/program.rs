//! The built program: started, fed and listened to.

use crate::random::Random;
use std::io::{self, BufRead, BufReader, Read, Write};
use std::path::Path;
use std::process::{Child, ChildStdin, Command, Stdio};
use std::thread;

/// How the input reaches the program.
#[derive(Clone, Copy, Debug, PartialEq, Eq)]
pub enum Feeding {
    /// As fast as the pipe takes it.
    Whole,
    /// In pieces of random sizes, each by itself.
    Pieces,
    /// Each byte by itself.
    Bytes,
    /// The next line only when the one before it has its answer.
    Talk,
}

pub fn start(program: &Path) -> io::Result<Child> {
    Command::new(program).stdin(Stdio::piped()).stdout(Stdio::piped()).stderr(Stdio::piped()).spawn()
}

/// What the program writes on this input. That it ends quietly is asked as well.
pub fn output(program: &Path, input: &[u8], feeding: Feeding, seed: u64) -> io::Result<Vec<u8>> {
    let mut child = start(program)?;
    let stdin = child.stdin.take().expect("a pipe");
    let mut stdout = child.stdout.take().expect("a pipe");
    let mut written = Vec::new();
    if feeding == Feeding::Talk {
        talk(stdin, &mut BufReader::new(stdout), input, &mut written)?;
    } else {
        let fed = input.to_vec();
        let feeder = thread::spawn(move || feed(stdin, &fed, feeding, seed));
        stdout.read_to_end(&mut written)?;
        feeder.join().expect("the feeder ends")?;
    }
    quiet_end(child)?;
    Ok(written)
}

fn feed(mut stdin: ChildStdin, input: &[u8], feeding: Feeding, seed: u64) -> io::Result<()> {
    let mut random = Random::seeded(seed);
    let mut left = input;
    while !left.is_empty() {
        let size = match feeding {
            Feeding::Whole | Feeding::Talk => left.len(),
            Feeding::Pieces => random.between(1, 200) as usize,
            Feeding::Bytes => 1,
        };
        let (piece, others) = left.split_at(size.min(left.len()));
        stdin.write_all(piece)?;
        left = others;
    }
    Ok(())
}

/// The last line may have no line feed: its answer comes when the input is closed.
fn talk(
    mut stdin: ChildStdin,
    stdout: &mut impl BufRead,
    input: &[u8],
    written: &mut Vec<u8>,
) -> io::Result<()> {
    for line in input.split_inclusive(|&byte| byte == b'\n') {
        stdin.write_all(line)?;
        if line.ends_with(b"\n") {
            stdout.read_until(b'\n', written)?;
        }
    }
    drop(stdin);
    stdout.read_to_end(written)?;
    Ok(())
}

/// The program ends with success and says nothing on standard error.
pub fn quiet_end(child: Child) -> io::Result<()> {
    let said = ended(child)?;
    if said.is_empty() {
        Ok(())
    } else {
        Err(io::Error::other(format!("on standard error: {}", String::from_utf8_lossy(&said))))
    }
}

/// The program ends with success: what it says on standard error.
pub fn ended(mut child: Child) -> io::Result<Vec<u8>> {
    let mut said = Vec::new();
    if let Some(mut stderr) = child.stderr.take() {
        stderr.read_to_end(&mut said)?;
    }
    let status = child.wait()?;
    if status.success() {
        Ok(said)
    } else {
        Err(io::Error::other(format!("{status}, and on standard error: {}", String::from_utf8_lossy(&said))))
    }
}
